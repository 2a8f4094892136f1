/* Gives a recording to the core event by event, and keeps a forwarding table and the summaries of
 * each area, as a daemon does.
 *
 *     router FILE        prints the output of `./abr replay FILE`
 *     router FILE due    prints the output of `./abr replay FILE --show due`
 *
 * The status is 0. It is 1 if the recording has a fault, or if the tables differ from those of the
 * core. It is 2 for wrong words, and 3 if memory ran out. */
#include "dues.h"
#include "fib.h"
#include "recording.h"
#include "support.h"

#include <stdio.h>
#include <string.h>

struct router {
    abr core;
    struct fib fib;
    struct dues dues;
    /* Memory ran out since these two were current. */
    bool is_behind;
    struct recording recording;
    struct event event;
};

static int say_fault(size_t line, uint32_t answer)
{
    if (answer == ABR_MEMORY)
        return say_no_memory();
    fprintf(stderr, "router: line %lu: %u %s\n", (unsigned long)line, (unsigned)answer, abr_name(answer));
    return FAULT;
}

/* Rebuilds the forwarding table and the summaries. */
static int walk_all(struct router *router)
{
    int status = walk_table(&router->fib, &router->core);

    return status == DONE ? walk_dues(&router->dues, &router->core) : status;
}

/* Opens the core with the preamble of the recording. The table of a base has routes already. */
static int open_core(struct router *router)
{
    const struct recording *recording = &router->recording;
    uint8_t seed[16];
    uint32_t answer;
    int status = read_seed(seed, sizeof seed);

    if (status != DONE)
        return status;
    if (recording->has_base)
        answer = abr_open_base(recording->bytes, recording->front_length, seed, sizeof seed, &router->core);
    else
        answer = abr_open(recording->bytes, recording->front_length, seed, sizeof seed, &router->core);
    router->dues.areas = recording->areas;
    router->dues.area_count = recording->area_count;
    if (answer == ABR_CURRENT)
        return walk_all(router);
    if (answer == ABR_MEMORY)
        return say_no_memory();
    fprintf(stderr, "router: before the events: %u %s\n", (unsigned)answer, abr_name(answer));
    return FAULT;
}

/* Calls `act` for each event, with the number of its line, while its status is DONE. */
static int for_each_event(struct router *router, int (*act)(struct router *router, size_t line))
{
    struct place place = first_place(&router->recording);
    int status = DONE;

    while (status == DONE && place.start < router->recording.length) {
        uint32_t fault = next_event(&router->recording, &place, &router->event);
        status = fault == ABR_CURRENT ? act(router, place.line) : say_fault(place.line, fault);
    }
    return status;
}

/* Returns true if the bytes to install are a valid LSA. A daemon does not need it: abr_install
 * says so too. */
static int check_event(struct router *router, size_t line)
{
    uint32_t fault = ABR_CURRENT;

    if (router->event.kind == EVENT_INSTALL)
        fault = abr_lsa_fault(router->event.lsa, router->event.lsa_length);
    return fault == ABR_CURRENT ? DONE : say_fault(line, fault);
}

/* Gives the event to the core, and returns its answer. */
static uint32_t hand_in(abr *core, const struct event *event)
{
    switch (event->kind) {
    case EVENT_INSTALL:
        return abr_install(core, event->scope, event->lsa, event->lsa_length);
    case EVENT_FLUSH:
        return abr_flush(core, event->scope, event->key);
    case EVENT_PURGE:
        return abr_purge(core, event->scope, event->key);
    case EVENT_INTERFACE:
        return abr_interface(core, event->id, event->area, event->address, event->peer, event->up);
    case EVENT_RANGE_SET:
        return abr_range_set(core, event->area, event->prefix, event->advertise);
    case EVENT_RANGE_DROP:
        return abr_range_drop(core, event->area, event->prefix);
    case EVENT_SECOND:
        return abr_second(core);
    case EVENT_ROLL:
        return abr_roll(core);
    case EVENT_LOOKUP:
        break;
    }
    return ABR_CURRENT;
}

/* Updates the forwarding table and the summaries. There are changes only from one current table
 * to the next. */
static int follow(struct router *router)
{
    int status;

    if (router->is_behind) {
        router->is_behind = false;
        return walk_all(router);
    }
    status = follow_changes(&router->fib, &router->core);
    return status == DONE ? follow_due_changes(&router->dues, &router->core) : status;
}

/* The event was taken, but memory ran out afterwards. A daemon would free some memory, or wait,
 * before it tries again. */
static int catch_up(struct router *router)
{
    router->is_behind = true;
    return abr_catch_up(&router->core) == ABR_CURRENT ? follow(router) : DONE;
}

static void print_lookup(abr *core, size_t line, uint32_t address)
{
    abr_item item;

    abr_lookup(core, address, &item);
    printf("%lu lookup ", (unsigned long)line);
    print_address(address);
    printf(" %llu ", (unsigned long long)abr_built(core));
    print_match(core, &item);
    printf("\n");
}

static int take_event(struct router *router, size_t line)
{
    uint32_t answer = hand_in(&router->core, &router->event);

    if (answer == ABR_CURRENT)
        return follow(router);
    if (answer == ABR_BEHIND) {
        printf("%lu behind\n", (unsigned long)line);
        return catch_up(router);
    }
    if (answer == ABR_MEMORY)
        return say_no_memory();
    printf("%lu refused %u %s\n", (unsigned long)line, (unsigned)answer, abr_name(answer));
    return DONE;
}

static int run_event(struct router *router, size_t line)
{
    int status = DONE;

    if (router->event.kind == EVENT_LOOKUP)
        print_lookup(&router->core, line, router->event.address);
    else
        status = take_event(router, line);
    if (status == DONE)
        status = compare_tables(&router->fib, &router->core);
    return status == DONE ? compare_dues(&router->dues, &router->core) : status;
}

static void print_routes(const struct fib *fib)
{
    size_t n, path;

    for (n = 0; n < fib->count; n++) {
        print_item(&fib->routes[n].item);
        for (path = 0; path < fib->routes[n].item.paths; path++) {
            fputs(path == 0 ? "" : ",", stdout);
            print_hop(&fib->routes[n].hops[path]);
        }
        printf("\n");
    }
}

/* Prints the summary-LSAs that are due in each area (12.4.3). */
static void print_dues(const struct dues *dues)
{
    size_t n;

    for (n = 0; n < dues->count; n++) {
        printf("due ");
        print_address(dues->list[n].area);
        printf(" ");
        print_due(&dues->list[n].due);
    }
}

static int print_end(struct router *router, bool shows_due)
{
    unsigned long long serial = abr_serial(&router->core), built = abr_built(&router->core);

    printf("serial %llu built %llu\n", serial, built);
    if (shows_due)
        print_dues(&router->dues);
    else
        print_routes(&router->fib);
    return fflush(stdout) != 0 || ferror(stdout) ? say(FAULT, "cannot write") : DONE;
}

/* Reads all lines before it runs the first, so that a recording with a fault prints nothing. */
static int replay(struct router *router, const char *file, bool shows_due)
{
    int status = read_recording(file, &router->recording);

    if (status == DONE)
        status = open_core(router);
    if (status == DONE)
        status = for_each_event(router, check_event);
    if (status == DONE)
        status = for_each_event(router, run_event);
    return status == DONE ? print_end(router, shows_due) : status;
}

int main(int count, char **words)
{
    static const abr NO_CORE = ABR_NO_CORE_YET;
    static struct router router;
    bool shows_due = count == 3 && strcmp(words[2], "due") == 0;
    int status;

    if (count != 2 && !shows_due)
        return say(USAGE, "usage: router FILE [due]");
    router.core = NO_CORE;
    status = replay(&router, words[1], shows_due);
    abr_close(router.core);
    free_dues(&router.dues);
    free_fib(&router.fib);
    free_recording(&router.recording);
    return status;
}
