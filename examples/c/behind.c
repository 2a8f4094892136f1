/* Has memory run out in the middle of an event, after each number of calls in turn, and compares
 * the answers of the core with abr.h. The linker replaces malloc and realloc by the two functions
 * below. The last line of the output is a count. The status is 1 if an answer is wrong. */
#include "expect.h"

#include <abr.h>

#include <stdio.h>
#include <string.h>

void *__real_malloc(size_t size);
void *__real_realloc(void *block, size_t size);
void *__wrap_malloc(size_t size);
void *__wrap_realloc(void *block, size_t size);

/* The number of calls that are answered yet. */
static unsigned long calls_left = (unsigned long)-1;

static const uint8_t SEED[16] = {1, 2, 3};
static const char CONFIG[] = "abr 2\n"
                             "router 10.0.0.1\n"
                             "compat disabled\n"
                             "area 0.0.0.0 normal\n"
                             "area 0.0.0.1 normal\n";
static const abr_scope AREA_1 = {false, 1};
static const uint32_t ADDRESS = 0xcb0071c8;

static bool has_memory(void)
{
    if (calls_left == 0)
        return false;
    calls_left--;
    return true;
}

void *__wrap_malloc(size_t size)
{
    return has_memory() ? __real_malloc(size) : NULL;
}

void *__wrap_realloc(void *block, size_t size)
{
    return has_memory() ? __real_realloc(block, size) : NULL;
}

static void run_out_after(unsigned long calls)
{
    calls_left = calls;
}

static void have_memory(void)
{
    calls_left = (unsigned long)-1;
}

/* Returns the cost of the network at the address, or 0 if there is none. */
static uint32_t cost(abr *core)
{
    abr_item item;

    abr_lookup(core, ADDRESS, &item);
    return item.cost;
}

/* Installs the router-LSA of 10.0.0.1, with a sequence number that many above 0x80000000, and a
 * stub link to 203.0.113.128/25 at the metric (A.4.2). */
static uint32_t install(abr *core, uint8_t sequence, uint8_t metric)
{
    uint8_t lsa[36] = {0, 1, 2, 1, 10,  0, 0,   1,   10,  0,   0,   1,   0x80, 0, 0, 0, 0, 0,
                       0, 36, 1, 0, 0,  1, 203, 0,   113, 128, 255, 255, 255, 128, 3, 0, 0, 0};
    uint16_t sum = 0;

    lsa[15] = sequence;
    lsa[35] = metric;
    expect_that(abr_lsa_sum(lsa, sizeof lsa, &sum), "a checksum");
    lsa[16] = (uint8_t)(sum >> 8);
    lsa[17] = (uint8_t)sum;
    return abr_install(core, AREA_1, lsa, sizeof lsa);
}

/* Returns true if the last event that was taken changed the due summary in area 0 to this metric,
 * and nothing else. */
static bool tells_due(abr *core, uint32_t metric)
{
    abr_due_change change;

    return abr_due_changes(core) == 1 && abr_due_change_at(core, 0, &change) && change.area == 0 && change.is_due
        && change.due.type == 3 && change.due.metric == metric;
}

static abr opened(void)
{
    abr core = ABR_NO_CORE_YET;

    expect_that(abr_open((const uint8_t *)CONFIG, strlen(CONFIG), SEED, sizeof SEED, &core) == ABR_CURRENT, "a core");
    expect_that(abr_interface(&core, 0, 0, 0xc6336401, 0, true) == ABR_CURRENT, "an interface to the backbone");
    expect_that(abr_interface(&core, 1, 1, 0xcb007181, 0, true) == ABR_CURRENT, "an interface");
    expect_that(install(&core, 1, 10) == ABR_CURRENT && cost(&core) == 10, "an LSA");
    expect_that(tells_due(&core, 10), "the network comes to what is due");
    return core;
}

/* The event was not taken, and nothing is changed. It is given a second time. */
static void check_refused(abr *core)
{
    expect_that(abr_serial(core) == 3 && abr_built(core) == 3 && cost(core) == 10, "a refused event changes nothing");
    expect_that(abr_changes(core) == 1 && tells_due(core, 10), "the changes of the event before");
    have_memory();
    expect_that(install(core, 2, 20) == ABR_CURRENT && cost(core) == 20, "the event, once there is memory");
    expect_that(abr_changes(core) == 1 && tells_due(core, 20), "the changes of the event");
}

/* The event was taken, and the table is older. */
static void check_behind(abr *core, bool by_event)
{
    expect_that(abr_serial(core) == 4 && abr_built(core) == 3 && cost(core) == 10, "the table is older");
    expect_that(abr_changes(core) == 0 && abr_due_changes(core) == 0, "no changes are told");
    expect_that(abr_roll(core) == ABR_NOT_CURRENT, "no roll while the table is behind");
    expect_that(abr_catch_up(core) == ABR_BEHIND, "no memory to catch up");
    have_memory();
    if (by_event)
        expect_that(abr_second(core) == ABR_CURRENT, "the next event catches up");
    else
        expect_that(abr_catch_up(core) == ABR_CURRENT, "there is memory to catch up");
    expect_that(abr_built(core) == abr_serial(core) && cost(core) == 20, "the table is current");
    expect_that(abr_changes(core) == 0 && abr_due_changes(core) == 0, "no changes are told of what was caught up");
    expect_that(install(core, 3, 30) == ABR_CURRENT && abr_changes(core) == 1, "the changes of a later event");
    expect_that(tells_due(core, 30), "and what it changed of what is due");
    expect_that(abr_roll(core) == ABR_CURRENT, "a roll");
}

/* Gives the core an event for which memory runs out after this number of calls, and tests the
 * answer. */
static uint32_t check_event(unsigned long calls, bool by_event)
{
    abr core = opened();
    uint32_t answer;

    run_out_after(calls);
    answer = install(&core, 2, 20);
    if (answer == ABR_MEMORY)
        check_refused(&core);
    else if (answer == ABR_BEHIND)
        check_behind(&core, by_event);
    else
        expect_that(answer == ABR_CURRENT && cost(&core) == 20, "memory is enough");
    have_memory();
    abr_close(core);
    return answer;
}

/* Opens a core for which memory runs out after this number of calls. Nothing is left to close
 * then. */
static uint32_t check_opening(unsigned long calls)
{
    abr core = ABR_NO_CORE_YET;
    uint32_t answer;

    run_out_after(calls);
    answer = abr_open((const uint8_t *)CONFIG, strlen(CONFIG), SEED, sizeof SEED, &core);
    have_memory();
    expect_that(answer == ABR_CURRENT || answer == ABR_MEMORY, "a core, or no memory");
    expect_that(abr_second(&core) == (answer == ABR_CURRENT ? ABR_CURRENT : ABR_NO_CORE), "a second");
    abr_close(core);
    return answer;
}

int main(void)
{
    unsigned long calls, refused = 0, behind = 0;
    uint32_t answer;

    for (calls = 0; check_opening(calls) != ABR_CURRENT; calls++)
        ;
    for (calls = 0; (answer = check_event(calls, calls % 2 == 0)) != ABR_CURRENT; calls++) {
        refused += answer == ABR_MEMORY;
        behind += answer == ABR_BEHIND;
    }
    expect_that(refused > 0 && behind > 0, "memory ran out before the event was taken, and behind that");
    printf("behind: %lu answers, %lu wrong\n", answers, faults);
    return faults != 0;
}
