/* The shared parts of the examples: statuses, messages, room for lists, and the printed form of a
 * table. */
#ifndef SUPPORT_H
#define SUPPORT_H

#include <abr.h>

/* The statuses of a program, which most functions return. */
enum { DONE = 0, FAULT = 1, USAGE = 2, NO_MEMORY = 3 };

/* Writes a line to standard error, and returns the status. */
int say(int status, const char *text);
int say_no_memory(void);

/* Makes room for this number of items, at least one. Returns null if memory ran out; nothing is
 * changed then. */
void *with_room(void *items, size_t *room, size_t wanted, size_t size);

/* Reads a seed for abr_open. It has to be secret: who knows it can send LSAs that collide in the
 * core's hash tables. */
int read_seed(uint8_t *seed, size_t length);

/* Print to standard output, in the words of `./abr replay`. */
void print_address(uint32_t address);
void print_prefix(abr_prefix prefix);
void print_hop(const abr_hop *hop);

/* Prints an item without its next hops. */
void print_item(const abr_item *item);

/* Prints an item with its next hops, which are read from the core. */
void print_match(abr *core, const abr_item *item);

/* Prints the LS type, the destination and the metric of a summary-LSA. */
void print_due(const abr_due *due);

#endif
