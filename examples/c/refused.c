/* Gives the core inputs that it refuses, and compares the numbers with abr.h. The last line of
 * the output is a count. The status is 1 if an answer is wrong. */
#define _DEFAULT_SOURCE
#include "expect.h"
#include "lsas.h"

#include <abr.h>

#include <stdio.h>
#include <stdlib.h>
#include <string.h>
#include <sys/mman.h>
#include <unistd.h>

static const uint8_t SEED[16] = {1, 2, 3};
static const abr_scope BACKBONE = {false, 0}, NO_SUCH_AREA = {false, 9}, AS = {true, 0};

static const char CONFIG[] = "abr 2\n"
                             "router 10.0.0.1\n"
                             "compat disabled\n"
                             "area 0.0.0.0 normal\n"
                             "area 0.0.0.1 stub 10 all\n";

static void expect(uint32_t answer, uint32_t wanted, const char *what)
{
    answers++;
    if (answer == wanted)
        return;
    faults++;
    printf("%s: %u %s, and not %u %s\n", what, (unsigned)answer, abr_name(answer), (unsigned)wanted, abr_name(wanted));
}

static const uint8_t *bytes_of(const char *text)
{
    return (const uint8_t *)text;
}

static uint32_t open_text(const char *text, abr *core)
{
    return abr_open(bytes_of(text), strlen(text), SEED, sizeof SEED, core);
}

static abr opened(void)
{
    abr core = ABR_NO_CORE_YET;

    expect(open_text(CONFIG, &core), ABR_CURRENT, "the configuration");
    return core;
}

static abr_prefix prefix_of(uint32_t address, uint8_t length)
{
    abr_prefix prefix;

    prefix.address = address;
    prefix.length = length;
    return prefix;
}

static abr_key key_of(uint8_t type, uint32_t id, uint32_t router)
{
    abr_key key;

    key.type = type;
    key.id = id;
    key.router = router;
    return key;
}

/* ---- LSAs with and without faults */

static void expect_lsa(const struct lsa *lsa, uint32_t wanted, const char *what)
{
    expect(abr_lsa_fault(lsa->bytes, lsa->length), wanted, what);
}

/* Changes a byte of an LSA, seals it, and returns the answer. */
static void expect_changed(struct lsa *lsa, size_t at, uint8_t byte, uint32_t wanted, const char *what)
{
    lsa->bytes[at] = byte;
    seal(lsa);
    expect_lsa(lsa, wanted, what);
}

static void check_no_bytes(void)
{
    uint8_t byte = 0;
    uint16_t sum = 7;
    abr core = opened();

    expect(abr_lsa_fault(NULL, 0), ABR_LENGTH, "no LSA");
    expect(abr_lsa_fault(NULL, 36), ABR_LENGTH, "no LSA with a length");
    expect(abr_lsa_fault(&byte, 0), ABR_LENGTH, "an LSA of no bytes");
    expect(abr_install(&core, BACKBONE, NULL, 36), ABR_LENGTH, "no LSA to install");
    expect(abr_install(&core, BACKBONE, &byte, 0), ABR_LENGTH, "no bytes to install");
    expect_that(!abr_lsa_sum(NULL, 36, &sum) && sum == 7, "no checksum of no LSA");
    expect_that(!abr_lsa_sum(&byte, 0, &sum) && sum == 7, "no checksum of no bytes");
    abr_close(core);
}

/* Passes the first bytes of an LSA, which end where no memory is: a read past them would end the
 * program. */
static void check_cut(const struct lsa *lsa)
{
    long page = sysconf(_SC_PAGESIZE);
    int access = PROT_READ | PROT_WRITE, kind = MAP_PRIVATE | MAP_ANONYMOUS;
    uint8_t *pages = (uint8_t *)mmap(NULL, (size_t)page * 2, access, kind, -1, 0);
    abr core = opened();
    size_t length;

    if (pages == MAP_FAILED || mprotect(pages + page, (size_t)page, PROT_NONE) != 0) {
        expect_that(false, "two pages of memory");
        return;
    }
    for (length = 0; length <= lsa->length; length++) {
        uint8_t *bytes = pages + (size_t)page - length;
        bool is_whole = length == lsa->length;
        uint16_t sum;
        memcpy(bytes, lsa->bytes, length);
        expect(abr_lsa_fault(bytes, length), is_whole ? ABR_CURRENT : ABR_LENGTH, "an LSA that is cut off");
        expect(abr_install(&core, lsa->bytes[3] == 5 ? AS : BACKBONE, bytes, length),
               is_whole ? ABR_CURRENT : ABR_LENGTH, "an LSA that is cut off, installed");
        expect_that(abr_lsa_sum(bytes, length, &sum) == (length >= 20), "a checksum from 20 bytes on");
    }
    expect_that(abr_serial(&core) == 1, "only the whole LSA is an event");
    abr_close(core);
    munmap(pages, (size_t)page * 2);
}

/* Returns the answer for another value of the byte. The checksum does not cover the age (12.1.7),
 * and treats bytes of 0 and 255 as equal. */
static uint32_t wanted_of_byte(const struct lsa *lsa, size_t at, uint8_t byte)
{
    uint32_t age = at == 0 ? byte * 256u + lsa->bytes[1] : lsa->bytes[0] * 256u + byte;
    bool is_same_sum = (byte == 0 && lsa->bytes[at] == 255) || (byte == 255 && lsa->bytes[at] == 0);

    if (at < 2)
        return age > 3600 ? ABR_AGE : ABR_CURRENT;
    if (at == 18 || at == 19)
        return ABR_LENGTH;
    return is_same_sum ? ABR_CURRENT : ABR_CHECKSUM;
}

/* Changes each byte of an LSA to each other value. */
static void check_bytes(struct lsa *lsa)
{
    size_t at;
    unsigned other;

    for (at = 0; at < lsa->length; at++) {
        uint8_t byte = lsa->bytes[at];
        for (other = 1; other < 256; other++) {
            uint8_t changed = (uint8_t)(byte + other);
            uint32_t wanted = wanted_of_byte(lsa, at, changed);
            lsa->bytes[at] = changed;
            /* (with the checksum of another valid LSA, it may have any fault) */
            if (at == 16 || at == 17 || at < 2 || wanted != ABR_CURRENT)
                expect_lsa(lsa, wanted, "an LSA with one other byte");
            lsa->bytes[at] = byte;
        }
    }
}

static void check_cut_and_changed(void)
{
    static struct lsa lsa;
    uint8_t type;

    check_cut(router_lsa(&lsa));
    check_bytes(&lsa);
    for (type = 2; type <= 5; type++) {
        check_cut(other_lsa(&lsa, type));
        check_bytes(&lsa);
    }
}

/* One LSA for each fault, with a checksum that fits. */
static void check_faults(void)
{
    static struct lsa lsa;

    expect_changed(router_lsa(&lsa), 0, 0x0e, ABR_CURRENT, "an age of 3585");
    expect_changed(router_lsa(&lsa), 0, 0x0f, ABR_AGE, "an age of 3841");
    expect_changed(router_lsa(&lsa), 0, 0x80, ABR_AGE, "an age with the first bit");
    expect_changed(router_lsa(&lsa), 15, 0, ABR_SEQUENCE, "the sequence number 0x80000000");
    expect_changed(router_lsa(&lsa), 21, 1, ABR_RESERVED, "a reserved byte of a router-LSA");
    expect_changed(other_lsa(&lsa, 3), 24, 1, ABR_RESERVED, "a reserved byte of a summary-LSA");
    expect_changed(other_lsa(&lsa, 5), 24, 1, ABR_RESERVED, "a TOS of an AS-external-LSA");
    expect_changed(other_lsa(&lsa, 2), 21, 0, ABR_MASK, "the mask 255.0.255.0");
    expect_changed(other_lsa(&lsa, 4), 20, 255, ABR_MASK, "a mask of a summary-LSA of type 4");
    expect_changed(router_lsa(&lsa), 31, 1, ABR_MASK, "the mask 255.255.255.1 of a stub link");
    expect_changed(router_lsa(&lsa), 7, 3, ABR_ROUTER_ID, "a router-LSA with the ID of another router");
    expect_changed(router_lsa(&lsa), 32, 0, ABR_LINK_TYPE, "the link type 0");
    expect_changed(router_lsa(&lsa), 32, 5, ABR_LINK_TYPE, "the link type 5");
    expect_changed(router_lsa(&lsa), 23, 0, ABR_SHAPE, "a link that is not counted");
    expect_changed(router_lsa(&lsa), 23, 2, ABR_SHAPE, "a link that is missing");
    expect_changed(router_lsa(&lsa), 33, 255, ABR_SHAPE, "TOS entries that are missing");
}

static void check_kinds(void)
{
    static struct lsa lsa;
    unsigned type;

    for (type = 0; type < 256; type++) {
        begin_lsa(&lsa, (uint8_t)type, 0x0a000002, 20);
        seal(&lsa);
        expect_lsa(&lsa, type >= 1 && type <= 5 ? ABR_SHAPE : ABR_KIND, "an LSA of 20 bytes");
    }
}

static void check_long(void)
{
    static struct lsa lsa;
    abr core = opened();
    size_t length;

    for (length = LONGEST - 3; length <= LONGEST; length++) {
        begin_lsa(&lsa, 2, 0xc0000202, length);
        seal(&lsa);
        expect(abr_install(&core, BACKBONE, lsa.bytes, length), length % 4 == 0 ? ABR_CURRENT : ABR_SHAPE,
               "a network-LSA as long as can be");
    }
    expect(abr_install(&core, BACKBONE, lsa.bytes, LONGEST + 1), ABR_LENGTH, "an LSA of 65536 bytes");
    expect(abr_roll(&core), ABR_CURRENT, "a roll over a long LSA");
    begin_lsa(&lsa, 1, 0x0a000002, LONGEST);
    lsa.bytes[22] = 255;
    lsa.bytes[23] = 255;
    seal(&lsa);
    expect(abr_install(&core, BACKBONE, lsa.bytes, LONGEST), ABR_LINK_TYPE, "a router-LSA as long as can be");
    abr_close(core);
}

/* ---- Configurations */

static void expect_text(const char *text, uint32_t wanted)
{
    abr core = ABR_NO_CORE_YET;

    expect(open_text(text, &core), wanted, text);
    expect(abr_second(&core), wanted == ABR_CURRENT ? ABR_CURRENT : ABR_NO_CORE, "a second after the opening");
    abr_close(core);
}

/* As expect_text, for a configuration with a valid beginning. */
static void expect_areas(const char *areas, uint32_t wanted)
{
    char text[4096] = "abr 2\nrouter 10.0.0.1\ncompat disabled\n";

    strcat(text, areas);
    expect_text(text, wanted);
}

static void check_first_lines(void)
{
    expect_text("", ABR_TRUNCATED);
    expect_text("abr 1", ABR_TRUNCATED);
    expect_text("abr 0\n", ABR_VERSION);
    expect_text("abr 4\nrouter 10.0.0.1\n", ABR_VERSION);
    expect_text("\n", ABR_VERSION);
    expect_text("abr 1\n", ABR_TRUNCATED);
    expect_text("abr 1\nrouter 10.0.0.1\n", ABR_AREAS);
    expect_text("abr 1\narea 0.0.0.0 normal\n", ABR_ORDER);
    expect_text("abr 1\nrouter 10.0.0\narea 0.0.0.0 normal\n", ABR_LINE);
    expect_text("abr 1\nrouter 10.0.0.256\narea 0.0.0.0 normal\n", ABR_LINE);
    expect_text("abr 1\nrouter 10.0.0.01\narea 0.0.0.0 normal\n", ABR_LINE);
    expect_text("abr 1\nrouter 10.0.0.1\narea 0.0.0.0 normal\n", ABR_CURRENT);
    expect_text("abr 2\nrouter 10.0.0.1\n", ABR_TRUNCATED);
    expect_text("abr 2\nrouter 10.0.0.1\narea 0.0.0.0 normal\n", ABR_ORDER);
    expect_text("abr 2\nrouter 10.0.0.1\ncompat maybe\narea 0.0.0.0 normal\n", ABR_LINE);
    expect_text("abr 3\nrouter 10.0.0.1\ncompat enabled\n", ABR_TRUNCATED);
    expect_text("abr 3\nrouter 10.0.0.1\ncompat enabled\nserial 0\narea 0.0.0.0 normal\n", ABR_CURRENT);
    expect_text("abr 3\nrouter 10.0.0.1\ncompat enabled\nserial 1\narea 0.0.0.0 normal\n", ABR_ORDER);
}

static void check_areas(void)
{
    expect_areas("", ABR_AREAS);
    expect_areas("area 0.0.0.0 normal", ABR_TRUNCATED);
    expect_areas("area 0.0.0.0 odd\n", ABR_AREAS);
    expect_areas("area 0.0.0.0 normal\narea 0.0.0.1 odd\n", ABR_LINE);
    expect_areas("area 0.0.0.0 normal\narea  0.0.0.1 normal\n", ABR_LINE);
    expect_areas("area 0.0.0.0 normal\n\n", ABR_LINE);
    expect_areas("area 0.0.0.0 normal\nlookup 10.0.0.1\n", ABR_ORDER);
    expect_areas("area 0.0.0.0 normal\nsecond\n", ABR_ORDER);
    expect_areas("area 0.0.0.0 normal\nroll\n", ABR_LINE);
    expect_areas("area 0.0.0.1 normal\narea 0.0.0.0 normal\n", ABR_ORDER);
    expect_areas("area 0.0.0.1 normal\narea 0.0.0.1 normal\n", ABR_ORDER);
    expect_areas("area 0.0.0.0 stub 10 all\n", ABR_BACKBONE_STUB);
    expect_areas("area 0.0.0.1 stub 16777214 all\n", ABR_CURRENT);
    expect_areas("area 0.0.0.1 stub 16777215 all\n", ABR_COST);
    expect_areas("area 0.0.0.0 normal\narea 0.0.0.1 stub 4294967296 all\n", ABR_LINE);
    expect_areas("range 0.0.0.0 10.0.0.0/8 hide\n", ABR_ORDER);
    expect_areas("area 0.0.0.0 normal\nrange 0.0.0.1 10.0.0.0/8 hide\n", ABR_ORDER);
    expect_areas("area 0.0.0.0 normal\nrange 0.0.0.0 10.0.0.0/33 hide\n", ABR_LINE);
    expect_areas("area 0.0.0.0 normal\nrange 0.0.0.0 10.1.0.0/8 hide\n", ABR_LINE);
    expect_areas("area 0.0.0.0 normal\nrange 0.0.0.0 10.0.0.0/8 hide\nrange 0.0.0.0 10.1.0.0/16 advertise\n",
                 ABR_RANGES_OVERLAP);
}

static void check_many(void)
{
    char areas[2048] = "", ranges[4096] = "area 0.0.0.0 normal\n";
    int n;

    for (n = 0; n < 17; n++) {
        expect_areas(areas, n == 0 ? ABR_AREAS : ABR_CURRENT);
        sprintf(areas + strlen(areas), "area 0.0.0.%d normal\n", n);
    }
    expect_areas(areas, ABR_AREAS);
    for (n = 0; n < 33; n++) {
        expect_areas(ranges, ABR_CURRENT);
        sprintf(ranges + strlen(ranges), "range 0.0.0.0 10.%d.0.0/16 hide\n", n);
    }
    expect_areas(ranges, ABR_RANGE_COUNT);
}

/* Each beginning of a configuration. One line or more may be there, or a part of one. */
static void check_cut_config(void)
{
    size_t length, lines = 0;

    for (length = 0; length <= sizeof CONFIG - 1; length++) {
        abr core = ABR_NO_CORE_YET;
        bool is_cut = length > 0 && CONFIG[length - 1] != '\n';
        uint32_t wanted = ABR_TRUNCATED;
        lines += length > 0 && !is_cut;
        if (!is_cut && lines >= 3)
            wanted = lines == 3 ? ABR_AREAS : ABR_CURRENT;
        expect(abr_open(bytes_of(CONFIG), length, SEED, sizeof SEED, &core), wanted, "a part of the configuration");
        abr_close(core);
    }
}

static void check_opening(void)
{
    abr core = ABR_NO_CORE_YET;
    size_t length;

    expect(abr_open(NULL, 0, SEED, sizeof SEED, &core), ABR_TRUNCATED, "no configuration");
    expect(abr_open(NULL, 40, SEED, sizeof SEED, &core), ABR_TRUNCATED, "no configuration with a length");
    expect(abr_open_base(NULL, 0, SEED, sizeof SEED, &core), ABR_TRUNCATED, "no base");
    for (length = 0; length < sizeof SEED; length++)
        expect(abr_open(bytes_of(CONFIG), strlen(CONFIG), SEED, length, &core), ABR_LENGTH, "a short seed");
    expect(abr_open(bytes_of(CONFIG), strlen(CONFIG), NULL, 16, &core), ABR_LENGTH, "no seed");
    expect(abr_open_base(bytes_of(CONFIG), strlen(CONFIG), NULL, 0, &core), ABR_LENGTH, "no seed for a base");
    expect(abr_second(&core), ABR_NO_CORE, "a second for a core that did not open");
    abr_close(core);
}

/* A core that is opened a second time is closed first, also if no core is opened then. */
static void check_opening_again(void)
{
    abr core = opened();

    expect(abr_second(&core), ABR_CURRENT, "a second");
    expect(open_text(CONFIG, &core), ABR_CURRENT, "a core that is opened again");
    expect_that(abr_serial(&core) == 0, "a core that is opened again begins anew");
    expect(open_text("abr 9\n", &core), ABR_VERSION, "a core that is opened again with a fault");
    expect(abr_second(&core), ABR_NO_CORE, "a second for a core that was not opened again");
    expect(open_text(CONFIG, &core), ABR_CURRENT, "a core that is opened after a fault");
    abr_close(core);
}

/* ---- Bases */

static void expect_base(const char *rest, uint32_t wanted)
{
    char text[4096] = "abr 3\nrouter 10.0.0.1\ncompat disabled\nserial 5\narea 0.0.0.0 normal\narea 0.0.0.1 normal\n";
    abr core = ABR_NO_CORE_YET;

    strcat(text, rest);
    expect(abr_open_base(bytes_of(text), strlen(text), SEED, sizeof SEED, &core), wanted, text);
    expect_that(abr_serial(&core) == (wanted == ABR_CURRENT ? 5 : 0), "the serial of the base");
    abr_close(core);
}

static void check_bases(void)
{
    expect_base("", ABR_CURRENT);
    expect_base("has interface 1 0.0.0.0 192.0.2.1 0.0.0.0 up\n", ABR_CURRENT);
    expect_base("has interface 1 0.0.0.9 192.0.2.1 0.0.0.0 up\n", ABR_NO_AREA);
    expect_base("has interface 256 0.0.0.0 192.0.2.1 0.0.0.0 up\n", ABR_LINE);
    expect_base("has interface 1 0.0.0.0 192.0.2.1 0.0.0.0 on\n", ABR_LINE);
    expect_base("has interface 1 0.0.0.0 192.0.2.1 0.0.0.0 up\nhas interface 1 0.0.0.0 192.0.2.2 0.0.0.0 up\n",
                ABR_ORDER);
    expect_base("has interface 1 0.0.0.0 192.0.2.1 0.0.0.0 up\nhas interface 2 0.0.0.1 192.0.2.1 0.0.0.0 up\n",
                ABR_ADDRESS_TAKEN);
    expect_base("has lsa 0.0.0.0 000102030a0100000a00000280000001da61001cffff00000000000a\n", ABR_CURRENT);
    expect_base("has lsa 0.0.0.9 000102030a0100000a00000280000001da61001cffff00000000000a\n", ABR_NO_AREA);
    expect_base("has lsa as 000102030a0100000a00000280000001da61001cffff00000000000a\n", ABR_SCOPE);
    expect_base("has lsa 0.0.0.0 000102030a0100000a00000280000001da62001cffff00000000000a\n", ABR_CHECKSUM);
    expect_base("has lsa 0.0.0.0 000102030A0100000a00000280000001da61001cffff00000000000a\n", ABR_LINE);
    expect_base("has lsa 0.0.0.0 \n", ABR_LENGTH);
    expect_base("second\n", ABR_ORDER);
    expect_base("has interface 1 0.0.0.0 192.0.2.1 0.0.0.0 up", ABR_TRUNCATED);
}

/* The last serial was given, so no further event is taken. */
static void check_last_serial(void)
{
    static const char TEXT[] = "abr 3\n"
                               "router 10.0.0.1\n"
                               "compat disabled\n"
                               "serial 18446744073709551615\n"
                               "area 0.0.0.0 normal\n";
    abr core = ABR_NO_CORE_YET;

    expect(abr_open_base(bytes_of(TEXT), strlen(TEXT), SEED, sizeof SEED, &core), ABR_CURRENT, TEXT);
    expect(abr_second(&core), ABR_JOURNAL_FULL, "a second behind the last serial");
    expect(abr_interface(&core, 1, 0, 1, 0, true), ABR_JOURNAL_FULL, "an interface behind the last serial");
    expect_that(abr_serial(&core) == UINT64_MAX && abr_built(&core) == UINT64_MAX, "the last serial");
    abr_close(core);
}

/* ---- Events */

static void check_lsa_events(void)
{
    static struct lsa lsa;
    abr core = opened();

    router_lsa(&lsa);
    expect(abr_install(&core, NO_SUCH_AREA, lsa.bytes, lsa.length), ABR_NO_AREA, "an LSA of no area");
    expect(abr_install(&core, AS, lsa.bytes, lsa.length), ABR_SCOPE, "a router-LSA of the AS");
    expect(abr_install(&core, BACKBONE, lsa.bytes, lsa.length), ABR_CURRENT, "a router-LSA");
    expect(abr_install(&core, BACKBONE, lsa.bytes, lsa.length), ABR_SAME, "the same LSA");
    lsa.bytes[15] = 2;
    seal(&lsa);
    expect(abr_install(&core, BACKBONE, lsa.bytes, lsa.length), ABR_CURRENT, "a newer LSA");
    expect(abr_install(&core, BACKBONE, router_lsa(&lsa)->bytes, lsa.length), ABR_OLDER, "an older LSA");
    other_lsa(&lsa, 5);
    expect(abr_install(&core, BACKBONE, lsa.bytes, lsa.length), ABR_SCOPE, "an AS-external-LSA of an area");
    expect(abr_install(&core, AS, lsa.bytes, lsa.length), ABR_CURRENT, "an AS-external-LSA");
    expect(abr_flush(&core, BACKBONE, key_of(1, 0x0a000002, 0x0a000002)), ABR_NOT_OWN, "a flush of another's LSA");
    expect(abr_purge(&core, BACKBONE, key_of(1, 0x0a000002, 0x0a000002)), ABR_NOT_MAX_AGE, "a purge of a young LSA");
    expect(abr_flush(&core, NO_SUCH_AREA, key_of(1, 1, 1)), ABR_NO_AREA, "a flush in no area");
    expect(abr_purge(&core, NO_SUCH_AREA, key_of(1, 1, 1)), ABR_NO_AREA, "a purge in no area");
    expect(abr_flush(&core, AS, key_of(1, 1, 1)), ABR_SCOPE, "a flush of a router-LSA of the AS");
    expect(abr_purge(&core, BACKBONE, key_of(5, 1, 1)), ABR_SCOPE, "a purge of an AS-external-LSA of an area");
    expect_that(abr_serial(&core) == 3, "no refused event has a serial");
    abr_close(core);
}

/* A database is at its limit. */
static void check_full(abr_scope scope, uint8_t type, uint32_t most)
{
    static struct lsa lsa;
    abr core = opened();
    uint32_t n, current = 0;

    other_lsa(&lsa, type);
    for (n = 0; n < most; n++) {
        put_number(&lsa.bytes[4], 0x0a000000 + (n << 8));
        seal(&lsa);
        current += abr_install(&core, scope, lsa.bytes, lsa.length) == ABR_CURRENT;
    }
    expect_that(current == most, "a database is filled");
    lsa.bytes[15] = 2;
    seal(&lsa);
    expect(abr_install(&core, scope, lsa.bytes, lsa.length), ABR_CURRENT, "a newer LSA for a full database");
    put_number(&lsa.bytes[4], 0xc0000200);
    seal(&lsa);
    expect(abr_install(&core, scope, lsa.bytes, lsa.length), ABR_FULL, "an LSA too many");
    abr_close(core);
}

/* The journal is at its limit, until it is rolled. */
static void check_journal(void)
{
    abr core = opened();
    uint32_t n, current = 0;

    for (n = 0; n < 1000000; n++)
        current += abr_second(&core) == ABR_CURRENT;
    expect_that(current == 1000000, "the journal is filled");
    expect(abr_second(&core), ABR_JOURNAL_FULL, "an event too many");
    expect(abr_roll(&core), ABR_CURRENT, "a roll of a full journal");
    expect(abr_second(&core), ABR_CURRENT, "an event behind the roll");
    expect_that(abr_serial(&core) == 1000001 && abr_base_serial(&core) == 1000000, "the serials behind the roll");
    abr_close(core);
}

/* No database has an LSA of such a type. */
static void check_keys(void)
{
    abr core = opened();
    unsigned type;

    for (type = 0; type < 256; type++) {
        abr_key key = key_of((uint8_t)type, 0x0a000002, 0x0a000002);
        uint32_t wanted = type == 5 ? ABR_SCOPE : ABR_NO_LSA, wanted_of_as = type == 5 ? ABR_NO_LSA : ABR_SCOPE;
        expect(abr_flush(&core, BACKBONE, key), wanted, "a flush of no LSA");
        expect(abr_purge(&core, BACKBONE, key), wanted, "a purge of no LSA");
        expect(abr_flush(&core, AS, key), wanted_of_as, "a flush of no LSA of the AS");
        expect(abr_purge(&core, AS, key), wanted_of_as, "a purge of no LSA of the AS");
    }
    expect_that(abr_serial(&core) == 0, "no event was taken");
    abr_close(core);
}

static void check_interfaces(void)
{
    abr core = opened();

    expect(abr_interface(&core, 1, 9, 0xc0000201, 0, true), ABR_NO_AREA, "an interface of no area");
    expect(abr_interface(&core, 0, 0, 0xc0000201, 0, true), ABR_CURRENT, "interface 0");
    expect(abr_interface(&core, 255, 1, 0xc0000201, 0, true), ABR_ADDRESS_TAKEN, "an address twice");
    expect(abr_interface(&core, 255, 1, 0xc0000201, 0, false), ABR_CURRENT, "an address twice, once down");
    expect(abr_interface(&core, 0, 0, 0xc0000201, 0, true), ABR_CURRENT, "the same interface");
    expect_that(abr_serial(&core) == 3, "three events were taken");
    abr_close(core);
}

/* Networks that are not valid: too long, or with a bit past the length. */
static void check_prefixes(void)
{
    static const abr_prefix WRONG[] = {{0, 33},          {0, 255},         {0xc0000200, 33}, {1, 0},
                                       {0xc0000201, 24}, {0xc0000280, 24}, {0x80000000, 0},  {0xffffffff, 31}};
    abr core = opened();
    size_t n;

    for (n = 0; n < sizeof WRONG / sizeof WRONG[0]; n++) {
        abr_item item;
        abr_hop hop;
        memset(&item, 255, sizeof item);
        expect(abr_range_set(&core, 0, WRONG[n], true), ABR_NO_PREFIX, "a range of no network");
        expect(abr_range_drop(&core, 0, WRONG[n]), ABR_NO_PREFIX, "no range of no network");
        abr_get(&core, WRONG[n], &item);
        expect_that(item.kind == ABR_NONE && item.prefix.address == 0 && item.prefix.length == 0 && item.area == 0
                        && item.cost == 0 && item.cost2 == 0 && item.paths == 0, "nothing for no network");
        expect_that(!abr_path(&core, WRONG[n], 0, &hop), "no path for no network");
    }
    expect_that(abr_serial(&core) == 0, "no event was taken");
    abr_close(core);
}

static void check_ranges(void)
{
    abr core = opened();
    uint32_t n;

    expect(abr_range_set(&core, 9, prefix_of(0x0a000000, 8), true), ABR_NO_AREA, "a range of no area");
    expect(abr_range_drop(&core, 9, prefix_of(0x0a000000, 8)), ABR_NO_AREA, "no range of no area");
    expect(abr_range_drop(&core, 1, prefix_of(0x0a000000, 8)), ABR_NO_RANGE, "no range to drop");
    for (n = 0; n < 32; n++)
        expect(abr_range_set(&core, 1, prefix_of(0x0a000000 + (n << 16), 16), true), ABR_CURRENT, "a range");
    expect(abr_range_set(&core, 1, prefix_of(0x0b000000, 16), true), ABR_RANGE_FULL, "a range too many");
    expect(abr_range_set(&core, 1, prefix_of(0x0a000000, 16), false), ABR_CURRENT, "a range that is there");
    expect(abr_range_set(&core, 1, prefix_of(0x0a000000, 8), true), ABR_RANGE_OVERLAPS, "a range over others");
    expect(abr_range_set(&core, 1, prefix_of(0x0a010100, 24), true), ABR_RANGE_OVERLAPS, "a range under another");
    expect(abr_range_set(&core, 0, prefix_of(0, 0), true), ABR_CURRENT, "a range of all addresses");
    expect(abr_range_set(&core, 0, prefix_of(0xffffffff, 32), true), ABR_RANGE_OVERLAPS, "a range of one address");
    expect(abr_range_drop(&core, 0, prefix_of(0, 0)), ABR_CURRENT, "a range to drop");
    expect(abr_range_drop(&core, 0, prefix_of(0, 0)), ABR_NO_RANGE, "a range that was dropped");
    abr_close(core);
}

/* ---- Numbers past the end */

static void check_past_end(void)
{
    static const size_t NUMBERS[] = {1, 2, 255, 65536, (size_t)-1 / 2, (size_t)-1};
    static struct lsa lsa;
    abr core = opened();
    size_t n;

    router_lsa(&lsa);
    expect(abr_install(&core, BACKBONE, lsa.bytes, lsa.length), ABR_CURRENT, "an LSA to install");
    for (n = 0; n < sizeof NUMBERS / sizeof NUMBERS[0]; n++) {
        abr_base_interface interface = {7, false, 0, 0, 0};
        abr_scope scope = {true, 7};
        abr_item item = {7, {7, 7}, 7, 7, 7, 7};
        abr_prefix prefix = {7, 7};
        abr_due due = {7, {7, 7}, 7};
        abr_due_change change = {7, false, {7, {7, 7}, 7}};
        abr_hop hop = {7, 7, false, 7, 7};
        uint8_t byte = 7;
        expect_that(!abr_item_at(&core, NUMBERS[n], &item) && item.kind == 7, "no item past the end");
        expect_that(abr_items_from(&core, NUMBERS[n], &item, 0) == 0 && item.kind == 7, "no item without room");
        expect_that(!abr_change_at(&core, NUMBERS[n], &prefix) && prefix.length == 7, "no change past the end");
        expect_that(!abr_path(&core, prefix_of(0xc0000200, 24), NUMBERS[n], &hop) && hop.kind == 7, "no path past it");
        expect_that(!abr_due_at(&core, 0, NUMBERS[n], &due) && due.type == 7, "no due summary past the end");
        expect_that(!abr_due_at(&core, 9, NUMBERS[n], &due) && due.type == 7, "no due summary of no area");
        expect_that(!abr_due_change_at(&core, NUMBERS[n], &change) && change.area == 7, "no such change past the end");
        expect_that(!abr_base_interface_at(&core, NUMBERS[n], &interface) && interface.id == 7, "no interface past it");
        expect_that(abr_base_lsa_at(&core, NUMBERS[n], &scope, &byte, 1) == 0 && byte == 7, "no LSA past the end");
    }
    expect_that(abr_dues(&core, 9) == 0, "nothing is due in no area");
    abr_close(core);
}

/* ---- The base as text and as LSAs */

static void check_base_lsas(void)
{
    static struct lsa lsa;
    static uint8_t room[LONGEST];
    abr core = opened();
    abr_scope scope = {true, 7};

    other_lsa(&lsa, 3);
    expect(abr_install(&core, BACKBONE, lsa.bytes, lsa.length), ABR_CURRENT, "a summary-LSA");
    expect_that(abr_base_lsas(&core) == 0 && abr_base_serial(&core) == 0, "the base before a roll");
    expect(abr_roll(&core), ABR_CURRENT, "a roll");
    expect_that(abr_base_lsas(&core) == 1 && abr_base_serial(&core) == 1, "the base behind a roll");
    room[0] = 7;
    expect_that(abr_base_lsa_at(&core, 0, &scope, NULL, 99) == lsa.length, "the length of an LSA of the base");
    expect_that(abr_base_lsa_at(&core, 0, &scope, room, lsa.length - 1) == lsa.length && room[0] == 7, "no room");
    expect_that(abr_base_lsa_at(&core, 0, &scope, room, lsa.length) == lsa.length, "an LSA of the base");
    expect_that(memcmp(room, lsa.bytes, lsa.length) == 0 && !scope.as && scope.area == 0, "the bytes of the LSA");
    abr_close(core);
}

static void check_base_text(void)
{
    static uint8_t text[4096], again[4096];
    static struct lsa lsa;
    abr core = opened(), other = ABR_NO_CORE_YET;
    size_t length;

    other_lsa(&lsa, 5);
    expect(abr_install(&core, AS, lsa.bytes, lsa.length), ABR_CURRENT, "an AS-external-LSA");
    expect(abr_interface(&core, 3, 1, 0xc0000201, 0xc0000202, true), ABR_CURRENT, "an interface");
    expect(abr_range_set(&core, 1, prefix_of(0x0a000000, 8), false), ABR_CURRENT, "a range");
    expect(abr_roll(&core), ABR_CURRENT, "a roll");
    length = abr_base_text(&core, NULL, 0);
    expect_that(length > 0 && length <= sizeof text, "the length of the text");
    expect_that(abr_base_text(&core, text, length - 1) == length && text[0] == 0, "no room for the text");
    expect_that(abr_base_text(&core, text, length) == length && text[length] == 0, "the text of the base");
    expect(abr_open_base(text, length, SEED, sizeof SEED, &other), ABR_CURRENT, "a core from the text");
    expect_that(abr_base_text(&other, again, sizeof again) == length && memcmp(text, again, length) == 0, "its text");
    expect_that(abr_serial(&other) == 3 && abr_built(&other) == 3, "the same serial");
    expect(abr_open(text, length, SEED, sizeof SEED, &other), ABR_ORDER, "a base as a configuration");
    abr_close(other);
    abr_close(core);
}

/* ---- Several cores, and none */

static void check_two_cores(void)
{
    static struct lsa lsa;
    abr one = opened(), other = opened();
    abr_item item;

    router_lsa(&lsa);
    expect(abr_install(&one, BACKBONE, lsa.bytes, lsa.length), ABR_CURRENT, "an LSA for one core");
    expect(abr_range_set(&one, 1, prefix_of(0x0a000000, 8), true), ABR_CURRENT, "a range for one core");
    expect(abr_range_drop(&other, 1, prefix_of(0x0a000000, 8)), ABR_NO_RANGE, "a range that the other core has not");
    expect(abr_install(&other, BACKBONE, lsa.bytes, lsa.length), ABR_CURRENT, "the LSA for the other core");
    expect_that(abr_serial(&one) == 2 && abr_serial(&other) == 1, "the serials of two cores");
    abr_close(one);
    expect(abr_second(&other), ABR_CURRENT, "a second for the core that is left");
    abr_lookup(&other, 0xc0000201, &item);
    abr_close(other);
}

static void check_closing(void)
{
    abr none = ABR_NO_CORE_YET, failed = ABR_NO_CORE_YET, core = opened(), moved = core;

    abr_close(none);
    abr_close(none);
    expect(open_text("abr 9\n", &failed), ABR_VERSION, "a core that does not open");
    abr_close(failed);
    expect(abr_second(&moved), ABR_CURRENT, "a second for a core that was moved");
    abr_close(moved);
}

static void check_events_without_core(void)
{
    static struct lsa lsa;
    abr none = ABR_NO_CORE_YET;

    router_lsa(&lsa);
    expect(abr_install(&none, BACKBONE, lsa.bytes, lsa.length), ABR_NO_CORE, "an install without a core");
    expect(abr_flush(&none, BACKBONE, key_of(1, 1, 1)), ABR_NO_CORE, "a flush without a core");
    expect(abr_purge(&none, BACKBONE, key_of(1, 1, 1)), ABR_NO_CORE, "a purge without a core");
    expect(abr_interface(&none, 1, 0, 1, 0, true), ABR_NO_CORE, "an interface without a core");
    expect(abr_range_set(&none, 0, prefix_of(0, 0), true), ABR_NO_CORE, "a range without a core");
    expect(abr_range_drop(&none, 0, prefix_of(0, 0)), ABR_NO_CORE, "no range without a core");
    expect(abr_second(&none), ABR_NO_CORE, "a second without a core");
    expect(abr_catch_up(&none), ABR_NO_CORE, "a catch-up without a core");
    expect(abr_roll(&none), ABR_NO_CORE, "a roll without a core");
}

static void check_questions_without_core(void)
{
    abr none = ABR_NO_CORE_YET;
    abr_base_interface interface;
    abr_item item = {7, {7, 7}, 7, 7, 7, 7};
    abr_scope scope;
    abr_prefix prefix;
    abr_due due;
    abr_due_change change;
    abr_hop hop;
    uint8_t byte = 7;

    expect_that(abr_serial(&none) == 0 && abr_built(&none) == 0 && abr_base_serial(&none) == 0, "no serial");
    abr_lookup(&none, 0xc0000201, &item);
    expect_that(item.kind == ABR_NONE && item.paths == 0 && item.prefix.length == 0, "no match");
    item.kind = 7;
    abr_get(&none, prefix_of(0, 0), &item);
    expect_that(item.kind == ABR_NONE, "no network");
    expect_that(!abr_path(&none, prefix_of(0, 0), 0, &hop), "no path");
    expect_that(abr_changes(&none) == 0 && !abr_change_at(&none, 0, &prefix), "no change");
    expect_that(abr_items(&none) == 0 && !abr_item_at(&none, 0, &item), "no item");
    expect_that(abr_dues(&none, 0) == 0 && !abr_due_at(&none, 0, 0, &due), "nothing due");
    expect_that(abr_due_changes(&none) == 0 && !abr_due_change_at(&none, 0, &change), "no change of what is due");
    expect_that(abr_base_interfaces(&none) == 0 && !abr_base_interface_at(&none, 0, &interface), "no interface");
    expect_that(abr_base_lsas(&none) == 0 && abr_base_lsa_at(&none, 0, &scope, &byte, 1) == 0, "no LSA");
    expect_that(abr_base_text(&none, &byte, 1) == 0 && abr_base_text(&none, NULL, 0) == 0 && byte == 7, "no text");
}

/* Each number of abr.h has a name of its own, and no other number has one. */
static void check_names(void)
{
    unsigned named = 0;
    uint32_t number;

    for (number = 0; number < 1000; number++)
        named += strcmp(abr_name(number), "Unknown") != 0;
    expect_that(named == 38, "so many numbers have a name");
    expect_that(strcmp(abr_name((uint32_t)-1), "Unknown") == 0, "the greatest number has no name");
}

int main(void)
{
    check_no_bytes();
    check_cut_and_changed();
    check_faults();
    check_kinds();
    check_long();
    check_first_lines();
    check_areas();
    check_many();
    check_cut_config();
    check_opening();
    check_opening_again();
    check_bases();
    check_last_serial();
    check_lsa_events();
    check_full(BACKBONE, 3, 16384);
    check_full(AS, 5, 65536);
    check_journal();
    check_keys();
    check_interfaces();
    check_prefixes();
    check_ranges();
    check_past_end();
    check_base_lsas();
    check_base_text();
    check_two_cores();
    check_closing();
    check_events_without_core();
    check_questions_without_core();
    check_names();
    printf("refused: %lu answers, %lu wrong\n", answers, faults);
    return faults != 0;
}
