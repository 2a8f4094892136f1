/* A border router of two areas. It takes its interfaces and an LSA, looks an address up, and prints
   the route and the summaries due in the backbone. It needs only the library:

       cc examples/c/first_use.c $(pkg-config --cflags --libs abr) -o /tmp/first_use
       /tmp/first_use
*/
#include <abr.h>

#include <stdio.h>
#include <stdlib.h>

/* The configuration: the first lines of a recording. */
static const uint8_t TWO_AREAS[] = "abr 2\n"
                                   "router 10.0.0.1\n"
                                   "compat disabled\n"
                                   "area 0.0.0.0 normal\n"
                                   "area 0.0.0.1 normal\n";

/* The router-LSA of 10.0.0.1, with a stub link to 203.0.113.128/25 at metric 10 (A.4.2). */
static const uint8_t OWN[36] = {
    0, 1, 2, 1, 10, 0, 0, 1, 10, 0, 0, 1, 0x80, 0, 0, 1, 0x31, 0xc2, 0, 36,
    1, 0, 0, 1, 203, 0, 113, 128, 255, 255, 255, 128, 3, 0, 0, 10};

/* Fills the seed from the system's random source: only this program may know it. */
static void read_seed(uint8_t *seed, size_t length)
{
    FILE *source = fopen("/dev/urandom", "rb");

    if (source == NULL || fread(seed, 1, length, source) != length) {
        fprintf(stderr, "first_use: cannot read /dev/urandom\n");
        exit(EXIT_FAILURE);
    }
    fclose(source);
}

/* Ends the program if the answer is not ABR_CURRENT. */
static void expect_current(uint32_t answer)
{
    if (answer == ABR_CURRENT)
        return;
    fprintf(stderr, "first_use: %u %s\n", (unsigned)answer, abr_name(answer));
    exit(EXIT_FAILURE);
}

static void print_address(uint32_t it)
{
    printf("%u.%u.%u.%u", (unsigned)(it >> 24), (unsigned)(it >> 16 & 255), (unsigned)(it >> 8 & 255),
           (unsigned)(it & 255));
}

static void print_prefix(abr_prefix it)
{
    print_address(it.address);
    printf("/%u", (unsigned)it.length);
}

/* Prints an intra-area route to attached networks, as all routes of this router are. */
static void print_route(abr *core, const abr_item *item)
{
    abr_hop hop;

    if (item->kind != ABR_INTRA) {
        printf("no such route\n");
        return;
    }
    printf("route ");
    print_prefix(item->prefix);
    printf(" intra ");
    print_address(item->area);
    printf(" %u %u", (unsigned)item->cost, (unsigned)item->cost2);
    for (size_t n = 0; n < item->paths && abr_path(core, item->prefix, n, &hop); n++)
        printf("%sdirect:%u", n == 0 ? " " : ",", (unsigned)hop.interface);
    printf("\n");
}

/* Prints a summary-LSA for a network, as all are that are due in the backbone here. */
static void print_due(const abr_due *due)
{
    printf("due %u ", (unsigned)due->type);
    print_prefix(due->destination);
    printf(" %u\n", (unsigned)due->metric);
}

int main(void)
{
    uint8_t seed[16];
    abr core = ABR_NO_CORE_YET;
    abr_scope area_1 = {false, 1};
    abr_item item;
    abr_due due;

    read_seed(seed, sizeof seed);
    expect_current(abr_open(TWO_AREAS, sizeof TWO_AREAS - 1, seed, sizeof seed, &core));
    expect_current(abr_interface(&core, 1, 0, 0xc0000201, 0, true));
    expect_current(abr_interface(&core, 2, 1, 0xcb007181, 0, true));
    expect_current(abr_install(&core, area_1, OWN, sizeof OWN));
    abr_lookup(&core, 0xcb0071c8, &item);
    print_route(&core, &item);
    for (size_t n = 0; abr_due_at(&core, 0, n, &due); n++)
        print_due(&due);
    abr_close(core);
    return 0;
}
