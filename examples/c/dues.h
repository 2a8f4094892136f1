/* The summary-LSAs that the program originates into each area (RFC 2328, 12.4.3). They follow the
 * changes of the core. */
#ifndef DUES_H
#define DUES_H

#include "support.h"

struct originated {
    uint32_t area;
    abr_due due;
};

/* The originated summaries: areas in the order of the recording, and in each by type and
 * destination. One whose fields are 0 is empty. */
struct dues {
    struct originated *list;
    size_t count, room;
    /* The Area IDs, in the order of the recording; the caller's. */
    const uint32_t *areas;
    size_t area_count;
};

/* Follows the changes of the last event that was taken. The table was current before it, and is
 * now. */
int follow_due_changes(struct dues *dues, abr *core);

/* Rebuilds the list from all due summaries. */
int walk_dues(struct dues *dues, abr *core);

/* Compares the list with all due summaries. A daemon does not need it. */
int compare_dues(const struct dues *dues, abr *core);

void free_dues(struct dues *dues);

#endif
