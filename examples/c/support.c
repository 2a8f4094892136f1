#include "support.h"

#include <stdio.h>
#include <stdlib.h>

int say(int status, const char *text)
{
    fprintf(stderr, "router: %s\n", text);
    return status;
}

int say_no_memory(void)
{
    return say(NO_MEMORY, "memory ran out");
}

void *with_room(void *items, size_t *room, size_t wanted, size_t size)
{
    size_t more = *room < 16 ? 16 : *room;
    void *moved;

    if (items != NULL && wanted <= *room)
        return items;
    if (wanted > (size_t)-1 / 2 / size)
        return NULL;
    while (more < wanted)
        more *= 2;
    moved = realloc(items, more * size);
    if (moved != NULL)
        *room = more;
    return moved;
}

int read_seed(uint8_t *seed, size_t length)
{
    FILE *stream = fopen("/dev/urandom", "rb");
    size_t count = stream == NULL ? 0 : fread(seed, 1, length, stream);

    if (stream != NULL)
        fclose(stream);
    return count == length ? DONE : say(FAULT, "cannot read /dev/urandom");
}

void print_address(uint32_t address)
{
    printf("%u.%u.%u.%u", (unsigned)(address >> 24), (unsigned)(address >> 16 & 255), (unsigned)(address >> 8 & 255),
           (unsigned)(address & 255));
}

void print_prefix(abr_prefix prefix)
{
    print_address(prefix.address);
    printf("/%u", (unsigned)prefix.length);
}

void print_hop(const abr_hop *hop)
{
    static const char *const KINDS[] = {"direct", "peer", "router"};

    printf("%s:%u", KINDS[hop->kind], (unsigned)hop->interface);
    if (hop->kind == ABR_ROUTER) {
        printf(":");
        print_address(hop->address);
    }
    if (hop->has_advertiser) {
        printf("@");
        print_address(hop->advertiser);
    }
}

void print_item(const abr_item *item)
{
    static const char *const KINDS[] = {"none", "discard", "intra", "inter", "ext1", "ext2"};

    if (item->kind == ABR_NONE) {
        printf("none");
        return;
    }
    fputs(item->kind == ABR_DISCARD ? "discard " : "route ", stdout);
    print_prefix(item->prefix);
    if (item->kind == ABR_DISCARD)
        return;
    printf(" %s ", KINDS[item->kind]);
    if (item->kind == ABR_INTRA || item->kind == ABR_INTER)
        print_address(item->area);
    else
        printf("-");
    printf(" %lu %lu ", (unsigned long)item->cost, (unsigned long)item->cost2);
}

void print_match(abr *core, const abr_item *item)
{
    abr_hop hop;
    size_t n;

    print_item(item);
    for (n = 0; n < item->paths && abr_path(core, item->prefix, n, &hop); n++) {
        fputs(n == 0 ? "" : ",", stdout);
        print_hop(&hop);
    }
}

void print_due(const abr_due *due)
{
    printf("%u ", (unsigned)due->type);
    if (due->type == 3)
        print_prefix(due->destination);
    else
        print_address(due->destination.address);
    printf(" %lu\n", (unsigned long)due->metric);
}
