#include "fib.h"

#include <stdlib.h>
#include <string.h>

static int compare_prefixes(abr_prefix one, abr_prefix other)
{
    if (one.address != other.address)
        return one.address < other.address ? -1 : 1;
    return (int)one.length - (int)other.length;
}

/* Returns the index of the network, or the index where it would be. */
static size_t place_of(const struct fib *fib, abr_prefix prefix)
{
    size_t low = 0, high = fib->count;

    while (low < high) {
        size_t middle = low + (high - low) / 2;
        if (compare_prefixes(fib->routes[middle].item.prefix, prefix) < 0)
            low = middle + 1;
        else
            high = middle;
    }
    return low;
}

static bool has_route_at(const struct fib *fib, size_t place, abr_prefix prefix)
{
    return place < fib->count && compare_prefixes(fib->routes[place].item.prefix, prefix) == 0;
}

static void withdraw_route(struct fib *fib, abr_prefix prefix)
{
    size_t place = place_of(fib, prefix);

    if (!has_route_at(fib, place, prefix))
        return;
    free(fib->routes[place].hops);
    fib->count--;
    memmove(&fib->routes[place], &fib->routes[place + 1], (fib->count - place) * sizeof *fib->routes);
}

/* Copies the item that the core has for a network: no call returns a pointer into the core. */
static int copy_route(abr *core, const abr_item *item, struct route *route)
{
    size_t n, room = 0;

    route->item = *item;
    route->hops = NULL;
    if (item->paths == 0)
        return DONE;
    route->hops = (abr_hop *)with_room(NULL, &room, item->paths, sizeof *route->hops);
    if (route->hops == NULL)
        return say_no_memory();
    for (n = 0; n < item->paths; n++) {
        if (!abr_path(core, item->prefix, n, &route->hops[n])) {
            free(route->hops);
            return say(FAULT, "a next hop is missing");
        }
    }
    return DONE;
}

/* Puts the route into the table, which owns it afterwards. */
static int put_route(struct fib *fib, struct route route)
{
    size_t place = place_of(fib, route.item.prefix);
    void *moved;

    if (has_route_at(fib, place, route.item.prefix)) {
        free(fib->routes[place].hops);
        fib->routes[place] = route;
        return DONE;
    }
    moved = with_room(fib->routes, &fib->room, fib->count + 1, sizeof *fib->routes);
    if (moved == NULL) {
        free(route.hops);
        return say_no_memory();
    }
    fib->routes = (struct route *)moved;
    memmove(&fib->routes[place + 1], &fib->routes[place], (fib->count - place) * sizeof *fib->routes);
    fib->routes[place] = route;
    fib->count++;
    return DONE;
}

static int set_route(struct fib *fib, abr *core, const abr_item *item)
{
    struct route route;
    int status = copy_route(core, item, &route);

    return status == DONE ? put_route(fib, route) : status;
}

int follow_changes(struct fib *fib, abr *core)
{
    int status = DONE;
    abr_prefix prefix;
    abr_item item;
    size_t n;

    for (n = 0; status == DONE && n < abr_changes(core); n++) {
        abr_change_at(core, n, &prefix);
        abr_get(core, prefix, &item);
        if (item.kind == ABR_NONE)
            withdraw_route(fib, prefix);
        else
            status = set_route(fib, core, &item);
    }
    return status;
}

/* Reads the whole table at once. (Piece by piece each call would start from the first item.)
 * Returns null if memory ran out; otherwise the caller frees it. */
static abr_item *read_table(abr *core, size_t *count)
{
    size_t room = 0, wanted = abr_items(core);
    abr_item *items = (abr_item *)with_room(NULL, &room, wanted + 1, sizeof *items);

    if (items != NULL)
        *count = abr_items_from(core, 0, items, room);
    return items;
}

int walk_table(struct fib *fib, abr *core)
{
    size_t n, count = 0;
    abr_item *items = read_table(core, &count);
    int status = items == NULL ? say_no_memory() : DONE;

    withdraw_all(fib);
    for (n = 0; status == DONE && n < count; n++)
        status = set_route(fib, core, &items[n]);
    free(items);
    return status;
}

static bool is_same_hop(const abr_hop *one, const abr_hop *other)
{
    return one->kind == other->kind && one->interface == other->interface
        && one->has_advertiser == other->has_advertiser && one->address == other->address
        && one->advertiser == other->advertiser;
}

static bool is_same_item(const abr_item *one, const abr_item *other)
{
    return one->kind == other->kind && compare_prefixes(one->prefix, other->prefix) == 0 && one->area == other->area
        && one->cost == other->cost && one->cost2 == other->cost2 && one->paths == other->paths;
}

static bool is_same_route(abr *core, const abr_item *item, const struct route *route)
{
    abr_hop hop;
    size_t n;

    if (!is_same_item(item, &route->item))
        return false;
    for (n = 0; n < item->paths; n++) {
        if (!abr_path(core, item->prefix, n, &hop) || !is_same_hop(&hop, &route->hops[n]))
            return false;
    }
    return true;
}

int compare_tables(const struct fib *fib, abr *core)
{
    size_t n, count = 0;
    abr_item *items = read_table(core, &count);
    bool is_same = items != NULL && count == fib->count;

    if (items == NULL)
        return say_no_memory();
    for (n = 0; is_same && n < count; n++)
        is_same = is_same_route(core, &items[n], &fib->routes[n]);
    free(items);
    return is_same ? DONE : say(FAULT, "the forwarding table is not the table of the core");
}

void withdraw_all(struct fib *fib)
{
    while (fib->count > 0)
        free(fib->routes[--fib->count].hops);
}

void free_fib(struct fib *fib)
{
    withdraw_all(fib);
    free(fib->routes);
}
