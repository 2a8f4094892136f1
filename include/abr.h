/* abr.h: the event core of an OSPF area border router (RFC 2328), for C and C++.
 *
 * A core takes events: LSAs in their wire format, interfaces, area address ranges, seconds. After
 * each event it has the routing table (RFC 2328, 16) and the summary-LSAs that are due in each area
 * (12.4.3).
 *
 * Link with libabr.a. It calls malloc, realloc, free, memcpy, memmove and memset, and nothing else.
 *
 * Numbers are in the byte order of the host: 192.0.2.1 is 0xc0000201, as an address, a Router ID or
 * an Area ID.
 *
 * Only one call at a time may use a core, also if it only reads. Threads may share a core under a
 * lock of the program's own. Two cores are independent. No call keeps a pointer that it gets, and
 * none returns a pointer into a core: the results in `out` are copies, which stay valid. No call
 * blocks, starts a thread, writes to a stream, or aborts, not even if memory runs out. Do not call
 * from a signal handler, nor in the child of a fork of a program with threads.
 *
 * Pointers must be valid, and not null. Only pointers to bytes may be null: there are then no
 * bytes. */
#ifndef ABR_H
#define ABR_H

#include <stdbool.h>
#include <stddef.h>
#include <stdint.h>

#ifdef __cplusplus
extern "C" {
#endif

/* A core, or none. Begin with `abr core = ABR_NO_CORE_YET;`. Only these functions read or write it.
 * It may be moved: the program must not use the place from which it was moved. */
typedef struct abr {
    void *at;
    bool is_open;
} abr;

#define ABR_NO_CORE_YET {0, false}

/* The numbers that calls return. abr_name returns the name of each. */
enum {
    /* The event is taken, and the table and the due summaries reflect it. */
    ABR_CURRENT = 0,

    /* The bytes are not a valid LSA. Nothing is installed or changed. */
    ABR_LENGTH = 1,    /* fewer than 20 bytes, or not as many as its length field says; also a seed
                          of fewer than 16 bytes */
    ABR_CHECKSUM = 2,  /* the checksum does not fit, or is 0 (12.1.7) */
    ABR_AGE = 3,       /* the LS age is above MaxAge, 3600 s (12.1.1) */
    ABR_SEQUENCE = 4,  /* the reserved 0x80000000 (12.1.6) */
    ABR_KIND = 5,      /* the LS type is not 1 to 5 (A.4.1) */
    ABR_RESERVED = 6,  /* a reserved byte is not 0 */
    ABR_MASK = 7,      /* a mask is not ones and then zeros */
    ABR_ROUTER_ID = 8, /* the Link State ID of a router-LSA is not its Advertising Router */
    ABR_LINK_TYPE = 9, /* the type of a link is not 1 to 4 (A.4.2) */
    ABR_SHAPE = 10,    /* the body is cut off, or has bytes left over */

    /* The event is taken, but memory ran out: the table and the due summaries are older. Call
     * abr_catch_up when there is memory; the next event tries too. */
    ABR_BEHIND = 11,

    /* The event is refused, and nothing is changed. */
    ABR_NO_AREA = 20,       /* the area is not configured */
    ABR_SCOPE = 21,         /* an AS-external-LSA for an area, or another LSA for the AS */
    ABR_OLDER = 22,         /* the database has a newer instance (13.1) */
    ABR_SAME = 23,          /* the database has this instance */
    ABR_NO_LSA = 24,        /* the database has no LSA with this key */
    ABR_NOT_OWN = 25,       /* the LSA is not the router's own (14.1) */
    ABR_NOT_MAX_AGE = 26,   /* the LSA is not at MaxAge (14) */
    ABR_FULL = 27,          /* the database is at its limit */
    ABR_JOURNAL_FULL = 28,  /* the journal is at its limit: abr_roll empties it */
    ABR_ADDRESS_TAKEN = 29, /* another interface that is up has the address */
    ABR_MEMORY = 30,        /* memory ran out */
    ABR_RANGE_OVERLAPS = 34, /* another range of the area covers it, or is covered by it */
    ABR_NO_RANGE = 35,      /* the area has no range with this prefix */
    ABR_RANGE_FULL = 36,    /* the area has 32 ranges, the most that it may have */
    ABR_NOT_CURRENT = 37,   /* the table is behind, so there is no roll */

    /* The configuration has this fault, and no core is opened. */
    ABR_AREAS = 40,          /* no area, more than 16, or two with one Area ID */
    ABR_RANGES_OVERLAP = 41, /* a range of an area covers another range of it */
    ABR_BACKBONE_STUB = 42,  /* the backbone is a stub area */
    ABR_COST = 43,           /* the default cost of a stub area is 16777215, LSInfinity, or more */
    ABR_RANGE_COUNT = 44,    /* more than 32 ranges in an area */

    /* The text of the configuration, or of the base, has this fault, and no core is opened. */
    ABR_TRUNCATED = 50, /* the last line has no line feed, or one of the first lines is missing */
    ABR_VERSION = 51,   /* the first line is not "abr 1", "abr 2" or "abr 3" */
    ABR_LINE = 52,      /* a line has no form that the version has */
    ABR_ORDER = 53,     /* a line is out of order */

    /* The call has this fault, and nothing is changed. */
    ABR_NO_CORE = 60,  /* no core is open */
    ABR_NO_PREFIX = 61 /* the length is above 32, or a bit past it is 1 */
};

/* ---- Opening and closing */

/* Opens a core with a configuration: the header of a recording, as "abr 2\nrouter
 * 10.0.0.1\ncompat disabled\narea 0.0.0.0 normal\n". In versions 2 and 3 the `compat` line
 * enables or disables RFC1583Compatibility (16.2).
 *
 * `seed` is 16 bytes of the system's random source, the keys of the core's hash maps. A stranger
 * who knows it can choose keys that collide.
 *
 * Returns ABR_CURRENT, or the reason why `out` has no core. A core that was open in `out` is
 * closed. A text that continues after the header, or in version 3 has a serial other than 0, is
 * ABR_ORDER. If it continues with an LSA that is not valid, the number is the fault of the LSA. */
static inline uint32_t abr_open(const uint8_t *config, size_t config_length,
                                const uint8_t *seed, size_t seed_length, abr *out);

/* Opens a core with a base: the text of abr_base_text, or the lines of a recording in version 3
 * up to its first event. For a base that no event could have made, returns the refusal that the
 * event would have had: ABR_NO_AREA, ABR_SCOPE, ABR_FULL or ABR_ADDRESS_TAKEN. For an LSA that is
 * not valid, returns the fault of the LSA. */
static inline uint32_t abr_open_base(const uint8_t *base, size_t base_length,
                                     const uint8_t *seed, size_t seed_length, abr *out);

/* Closes the core, and frees its memory. An `abr` without a core is not changed. Afterwards the
 * program must not use any copy of the `abr`, until it is set to ABR_NO_CORE_YET
 * (`core = (abr)ABR_NO_CORE_YET;` in C). */
void abr_close(abr core);

/* ---- Events. Each returns ABR_CURRENT, ABR_BEHIND, or the reason why it is refused. If several
 * reasons hold, it is the fault of an LSA or ABR_NO_PREFIX, then ABR_NO_CORE, then a refusal. No
 * LSA has a key with a type other than 1 to 5. */

/* The database of an LSA: that of an area, or, if `as` is true, that of the AS (type 5). */
typedef struct abr_scope {
    bool as;
    uint32_t area;
} abr_scope;

/* The key of an LSA in a database. */
typedef struct abr_key {
    uint8_t type;    /* the LS type, 1 to 5 */
    uint32_t id;     /* the Link State ID */
    uint32_t router; /* the Advertising Router */
} abr_key;

/* A network. Its length is 0 to 32, and the bits of the address past the length are 0. */
typedef struct abr_prefix {
    uint32_t address;
    uint8_t length;
} abr_prefix;

/* Installs an LSA (13.2). `lsa` is its bytes, header and body, in wire format. */
static inline uint32_t abr_install(abr *core, abr_scope scope, const uint8_t *lsa, size_t length);

/* Sets one of the router's own LSAs to MaxAge: premature ageing (14.1). */
uint32_t abr_flush(abr *core, abr_scope scope, abr_key key);

/* Removes an LSA at MaxAge from its database (14). */
uint32_t abr_purge(abr *core, abr_scope scope, abr_key key);

/* Sets the interface with this id (0 to 255), and replaces its old settings. `peer` is the address
 * of the other end of a point-to-point link, or 0. */
uint32_t abr_interface(abr *core, uint8_t id, uint32_t area, uint32_t address, uint32_t peer, bool up);

/* Sets an area address range (C.2), and replaces the range of the area with its prefix. If
 * `advertise` is false, its networks are hidden from other areas. */
uint32_t abr_range_set(abr *core, uint32_t area, abr_prefix prefix, bool advertise);

/* Removes an area address range (C.2). */
uint32_t abr_range_drop(abr *core, uint32_t area, abr_prefix prefix);

/* Ages all LSAs by one second: each LS age below MaxAge rises by one (14). */
uint32_t abr_second(abr *core);

/* Rebuilds the table and the due summaries if they are behind. Returns ABR_CURRENT, ABR_BEHIND or
 * ABR_NO_CORE. */
uint32_t abr_catch_up(abr *core);

/* Returns the number of events taken since the beginning, or 0 if no core is open. */
uint64_t abr_serial(abr *core);

/* Returns the number of these events that the table and the due summaries reflect. */
uint64_t abr_built(abr *core);

/* ---- The table */

enum { ABR_NONE = 0, ABR_DISCARD = 1, ABR_INTRA = 2, ABR_INTER = 3, ABR_EXTERNAL1 = 4, ABR_EXTERNAL2 = 5 };

/* The item of the table for a network (11). */
typedef struct abr_item {
    uint8_t kind;      /* ABR_NONE: none, and all else is 0. ABR_DISCARD: an active range (11.1) */
    abr_prefix prefix; /* the network */
    uint32_t area;     /* for ABR_INTRA and ABR_INTER, the area; else 0 */
    uint32_t cost;     /* for ABR_EXTERNAL2, to the forwarding address or the AS boundary router */
    uint32_t cost2;    /* for ABR_EXTERNAL2, the metric; else 0 */
    uint32_t paths;    /* the number of next hops, which all have one cost: abr_path returns them */
} abr_item;

enum { ABR_DIRECT = 0, ABR_PEER = 1, ABR_ROUTER = 2 };

/* A next hop. */
typedef struct abr_hop {
    uint8_t kind;        /* ABR_DIRECT: the network is attached. ABR_PEER: the other end of a
                            point-to-point link. ABR_ROUTER: the router with `address` */
    uint8_t interface;   /* the id of the interface that packets are sent on */
    bool has_advertiser; /* true if `advertiser` is set: intra-area paths have none */
    uint32_t address;    /* for ABR_ROUTER; else 0 */
    uint32_t advertiser; /* the border router, or the AS boundary router, that the path leads to */
} abr_hop;

/* Writes the longest match of an address (11.1) to `out`. It takes no memory. */
void abr_lookup(abr *core, uint32_t address, abr_item *out);

/* Writes the item for exactly this network to `out`. */
void abr_get(abr *core, abr_prefix prefix, abr_item *out);

/* Writes next hop number `n` of the network, 0 <= n < paths, in ascending order. Returns true if
 * there is one; if not, `out` is unchanged. */
bool abr_path(abr *core, abr_prefix prefix, size_t n, abr_hop *out);

/* Returns the number of networks whose item changed by the last event that was taken. A
 * forwarding table calls abr_get for each of them, and withdraws the network if its item is
 * ABR_NONE.
 *
 * If the table was behind before the event, or is behind after it, there are no changes of the
 * table or of the due summaries. After ABR_BEHIND and abr_catch_up, read both as a whole. */
size_t abr_changes(abr *core);

/* Writes changed network number `n`, ascending by address and length. Returns true if there is
 * one. */
bool abr_change_at(abr *core, size_t n, abr_prefix *out);

/* Returns the number of networks in the table. It takes time for each. */
size_t abr_items(abr *core);

/* Copies items of the table, from number `first` on, ascending by address and length, to `out`,
 * which has room for `room` items. Returns the number of copied items, below `room` only at the
 * end. It takes time for each, and for all items before. */
size_t abr_items_from(abr *core, size_t first, abr_item *out, size_t room);

/* Writes item number `n`: abr_items_from with room for one. Returns true if there is one. */
static inline bool abr_item_at(abr *core, size_t n, abr_item *out);

/* ---- Due summary-LSAs (12.4.3) */

typedef struct abr_due {
    uint8_t type;           /* 3: for a network. 4: for an AS boundary router */
    abr_prefix destination; /* for type 4 the Router ID, with length 32 */
    uint32_t metric;        /* below 16777215, LSInfinity */
} abr_due;

/* Returns the number of summary-LSAs due in the area, or 0 if it is not configured. */
size_t abr_dues(abr *core, uint32_t area);

/* Writes due summary-LSA number `n` of the area, ascending by type and destination. Returns true if
 * there is one. */
bool abr_due_at(abr *core, uint32_t area, size_t n, abr_due *out);

/* A change of the summary-LSAs due in an area. */
typedef struct abr_due_change {
    uint32_t area;
    bool is_due; /* false: the destination in `due` is no longer due, and its metric is 0 */
    abr_due due; /* the summary that is due now */
} abr_due_change;

/* Returns the number of summary-LSAs that the last event that was taken changed, over all areas:
 * they became due, are no longer due, or have another metric. A daemon originates (12.4) or
 * flushes (14.1) each of them. If abr_changes returns 0 because the table is or was behind, so
 * does this. */
size_t abr_due_changes(abr *core);

/* Writes change number `n`: areas in the order of the configuration, and in each ascending by type
 * and destination. Returns true if there is one. */
bool abr_due_change_at(abr *core, size_t n, abr_due_change *out);

/* ---- The base: the state before the first event of the journal */

/* Makes the present state the base, and empties the journal. The table, the due summaries, the
 * changes and the serial are unchanged. Returns ABR_CURRENT, ABR_NOT_CURRENT, ABR_MEMORY or
 * ABR_NO_CORE. */
uint32_t abr_roll(abr *core);

/* Returns the serial of the base. */
uint64_t abr_base_serial(abr *core);

typedef struct abr_base_interface {
    uint8_t id;
    bool up;
    uint32_t area, address, peer;
} abr_base_interface;

/* Returns the number of interfaces of the base, and writes number `n` of them. */
size_t abr_base_interfaces(abr *core);
bool abr_base_interface_at(abr *core, size_t n, abr_base_interface *out);

/* Returns the number of LSAs of the base. */
size_t abr_base_lsas(abr *core);

/* Writes the scope of LSA number `n` of the base. Returns its length in bytes, or 0 if there is
 * none. If `room` is at least the length, its bytes are written to `lsa`. 65535 is always
 * enough. */
static inline size_t abr_base_lsa_at(abr *core, size_t n, abr_scope *scope, uint8_t *lsa, size_t room);

/* Returns the length in bytes of the base as text, which abr_open_base reads, or 0 if no core is
 * open or memory ran out. If `room` is at least the length, the text is written to `text`. */
static inline size_t abr_base_text(abr *core, uint8_t *text, size_t room);

/* ---- LSAs by themselves */

/* Returns ABR_CURRENT if the bytes are a valid LSA, or its first fault, or ABR_MEMORY. */
static inline uint32_t abr_lsa_fault(const uint8_t *lsa, size_t length);

/* Writes the checksum that the LSA has to have (12.1.7). Returns false below 20 bytes. */
static inline bool abr_lsa_sum(const uint8_t *lsa, size_t length, uint16_t *out);

/* Returns the name of a number, such as "Older", or "Unknown" for any other number. */
static inline const char *abr_name(uint32_t number);

/* ---- For the linker, and for languages other than C. These functions take bytes that are not
 * null. */

uint32_t abr_open_bytes(const uint8_t *config, size_t config_length, const uint8_t *seed, size_t seed_length, abr *out);
uint32_t abr_open_base_bytes(const uint8_t *base, size_t base_length,
                             const uint8_t *seed, size_t seed_length, abr *out);
uint32_t abr_install_bytes(abr *core, abr_scope scope, const uint8_t *lsa, size_t length);
size_t abr_base_lsa_bytes(abr *core, size_t n, abr_scope *scope, uint8_t *lsa, size_t room);
size_t abr_base_text_bytes(abr *core, uint8_t *text, size_t room);
uint32_t abr_lsa_fault_bytes(const uint8_t *lsa, size_t length);
bool abr_lsa_sum_bytes(const uint8_t *lsa, size_t length, uint16_t *out);

static inline uint32_t abr_open(const uint8_t *config, size_t config_length,
                                const uint8_t *seed, size_t seed_length, abr *out) {
    uint8_t none = 0;
    return abr_open_bytes(config ? config : &none, config ? config_length : 0,
                          seed ? seed : &none, seed ? seed_length : 0, out);
}

static inline uint32_t abr_open_base(const uint8_t *base, size_t base_length,
                                     const uint8_t *seed, size_t seed_length, abr *out) {
    uint8_t none = 0;
    return abr_open_base_bytes(base ? base : &none, base ? base_length : 0,
                               seed ? seed : &none, seed ? seed_length : 0, out);
}

static inline uint32_t abr_install(abr *core, abr_scope scope, const uint8_t *lsa, size_t length) {
    if (lsa == NULL)
        return ABR_LENGTH;
    return abr_install_bytes(core, scope, lsa, length);
}

static inline bool abr_item_at(abr *core, size_t n, abr_item *out) {
    return abr_items_from(core, n, out, 1) == 1;
}

static inline size_t abr_base_lsa_at(abr *core, size_t n, abr_scope *scope, uint8_t *lsa, size_t room) {
    uint8_t none = 0;
    return abr_base_lsa_bytes(core, n, scope, lsa ? lsa : &none, lsa ? room : 0);
}

static inline size_t abr_base_text(abr *core, uint8_t *text, size_t room) {
    uint8_t none = 0;
    return abr_base_text_bytes(core, text ? text : &none, text ? room : 0);
}

static inline uint32_t abr_lsa_fault(const uint8_t *lsa, size_t length) {
    if (lsa == NULL)
        return ABR_LENGTH;
    return abr_lsa_fault_bytes(lsa, length);
}

static inline bool abr_lsa_sum(const uint8_t *lsa, size_t length, uint16_t *out) {
    return lsa != NULL && abr_lsa_sum_bytes(lsa, length, out);
}

static inline const char *abr_name(uint32_t number) {
    switch (number) {
    case ABR_CURRENT: return "Current";
    case ABR_LENGTH: return "Length";
    case ABR_CHECKSUM: return "Checksum";
    case ABR_AGE: return "Age";
    case ABR_SEQUENCE: return "Sequence";
    case ABR_KIND: return "Kind";
    case ABR_RESERVED: return "Reserved";
    case ABR_MASK: return "Mask";
    case ABR_ROUTER_ID: return "RouterId";
    case ABR_LINK_TYPE: return "LinkType";
    case ABR_SHAPE: return "Shape";
    case ABR_BEHIND: return "Behind";
    case ABR_NO_AREA: return "NoArea";
    case ABR_SCOPE: return "Scope";
    case ABR_OLDER: return "Older";
    case ABR_SAME: return "Same";
    case ABR_NO_LSA: return "NoLsa";
    case ABR_NOT_OWN: return "NotOwn";
    case ABR_NOT_MAX_AGE: return "NotMaxAge";
    case ABR_FULL: return "Full";
    case ABR_JOURNAL_FULL: return "JournalFull";
    case ABR_ADDRESS_TAKEN: return "AddressTaken";
    case ABR_MEMORY: return "Memory";
    case ABR_RANGE_OVERLAPS: return "RangeOverlaps";
    case ABR_NO_RANGE: return "NoRange";
    case ABR_RANGE_FULL: return "RangeFull";
    case ABR_NOT_CURRENT: return "NotCurrent";
    case ABR_AREAS: return "Areas";
    case ABR_RANGES_OVERLAP: return "RangesOverlap";
    case ABR_BACKBONE_STUB: return "BackboneStub";
    case ABR_COST: return "Cost";
    case ABR_RANGE_COUNT: return "RangeCount";
    case ABR_TRUNCATED: return "Truncated";
    case ABR_VERSION: return "Version";
    case ABR_LINE: return "Line";
    case ABR_ORDER: return "Order";
    case ABR_NO_CORE: return "NoCore";
    case ABR_NO_PREFIX: return "NoPrefix";
    default: return "Unknown";
    }
}

#ifdef __cplusplus
}
#endif

#endif
