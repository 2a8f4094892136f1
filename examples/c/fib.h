/* A forwarding table of the program's own, like one in a kernel. It follows the changes of the
 * core. */
#ifndef FIB_H
#define FIB_H

#include "support.h"

/* A route: the item of the core for a network, and its next hops. A network whose packets are
 * dropped has none (11.1). */
struct route {
    abr_item item;
    abr_hop *hops;
};

/* The routes ascend by address and length. One whose fields are 0 is empty. */
struct fib {
    struct route *routes;
    size_t count, room;
};

/* Follows the changes of the last event that was taken. The table was current before it, and is
 * now. */
int follow_changes(struct fib *fib, abr *core);

/* Rebuilds the table from the whole table of the core. (A kernel would get only the differences,
 * so that it continues to forward.) */
int walk_table(struct fib *fib, abr *core);

/* Compares the table with the whole table of the core. A daemon does not need it. */
int compare_tables(const struct fib *fib, abr *core);

/* Withdraws all routes. The memory of the list is left, and freed by `free_fib`. */
void withdraw_all(struct fib *fib);
void free_fib(struct fib *fib);

#endif
