#include "dues.h"

#include <stdlib.h>
#include <string.h>

/* The place of the area in the recording. */
static size_t place_of_area(const struct dues *dues, uint32_t area)
{
    size_t n = 0;

    while (n < dues->area_count && dues->areas[n] != area)
        n++;
    return n;
}

static int compare_numbers(uint64_t one, uint64_t other)
{
    return one < other ? -1 : one > other;
}

/* The order of the list: by area, type, and destination. */
static int compare_places(const struct dues *dues, const struct originated *one, uint32_t area, const abr_due *due)
{
    int order = compare_numbers(place_of_area(dues, one->area), place_of_area(dues, area));

    if (order == 0)
        order = compare_numbers(one->due.type, due->type);
    if (order == 0)
        order = compare_numbers(one->due.destination.address, due->destination.address);
    if (order == 0)
        order = compare_numbers(one->due.destination.length, due->destination.length);
    return order;
}

/* Returns the index of the summary, or the index where it would be. */
static size_t place_of(const struct dues *dues, uint32_t area, const abr_due *due)
{
    size_t low = 0, high = dues->count;

    while (low < high) {
        size_t middle = low + (high - low) / 2;
        if (compare_places(dues, &dues->list[middle], area, due) < 0)
            low = middle + 1;
        else
            high = middle;
    }
    return low;
}

static bool stands_at(const struct dues *dues, size_t place, uint32_t area, const abr_due *due)
{
    return place < dues->count && compare_places(dues, &dues->list[place], area, due) == 0;
}

/* Adds a summary that became due, or sets its metric. A daemon would send an instance of the LSA
 * here. */
static int originate(struct dues *dues, uint32_t area, const abr_due *due)
{
    size_t place = place_of(dues, area, due);
    void *moved;

    if (!stands_at(dues, place, area, due)) {
        moved = with_room(dues->list, &dues->room, dues->count + 1, sizeof *dues->list);
        if (moved == NULL)
            return say_no_memory();
        dues->list = (struct originated *)moved;
        memmove(&dues->list[place + 1], &dues->list[place], (dues->count - place) * sizeof *dues->list);
        dues->count++;
    }
    dues->list[place].area = area;
    dues->list[place].due = *due;
    return DONE;
}

/* Removes a summary. A daemon would age the LSA prematurely here (14.1). It may be gone already:
 * after a roll the core still returns the changes of the event before. */
static void flush_out(struct dues *dues, uint32_t area, const abr_due *due)
{
    size_t place = place_of(dues, area, due);

    if (!stands_at(dues, place, area, due))
        return;
    dues->count--;
    memmove(&dues->list[place], &dues->list[place + 1], (dues->count - place) * sizeof *dues->list);
}

int follow_due_changes(struct dues *dues, abr *core)
{
    size_t n, count = abr_due_changes(core);
    int status = DONE;
    abr_due_change change;

    for (n = 0; status == DONE && n < count; n++) {
        if (!abr_due_change_at(core, n, &change))
            status = say(FAULT, "a change of what is due is missing");
        else if (change.is_due)
            status = originate(dues, change.area, &change.due);
        else
            flush_out(dues, change.area, &change.due);
    }
    return status;
}

static int walk_area(struct dues *dues, abr *core, uint32_t area)
{
    size_t n, count = abr_dues(core, area);
    int status = DONE;
    abr_due due;

    for (n = 0; status == DONE && n < count; n++) {
        if (!abr_due_at(core, area, n, &due))
            status = say(FAULT, "a summary that is due is missing");
        else
            status = originate(dues, area, &due);
    }
    return status;
}

int walk_dues(struct dues *dues, abr *core)
{
    int status = DONE;
    size_t n;

    dues->count = 0;
    for (n = 0; status == DONE && n < dues->area_count; n++)
        status = walk_area(dues, core, dues->areas[n]);
    return status;
}

static bool is_same_due(const abr_due *one, const abr_due *other)
{
    return one->type == other->type && one->destination.address == other->destination.address
        && one->destination.length == other->destination.length && one->metric == other->metric;
}

int compare_dues(const struct dues *dues, abr *core)
{
    size_t n, m, place = 0;
    bool is_same = true;
    abr_due due;

    for (n = 0; n < dues->area_count; n++) {
        for (m = 0; is_same && abr_due_at(core, dues->areas[n], m, &due); m++) {
            is_same = place < dues->count && dues->list[place].area == dues->areas[n]
                && is_same_due(&dues->list[place].due, &due);
            place++;
        }
    }
    return is_same && place == dues->count ? DONE : say(FAULT, "the summaries are not those that are due");
}

void free_dues(struct dues *dues)
{
    free(dues->list);
}
