/* A recording: a text with a line for each event. It begins with the preamble: a configuration,
 * in version 3 with a base. docs/FORMATS.md has all lines. */
#ifndef RECORDING_H
#define RECORDING_H

#include "support.h"

enum {
    /* The length field of an LSA has 16 bits (A.4.1). One byte more shows that there are too
     * many bytes for an LSA. */
    LSA_ROOM = 65535 + 1,
    MOST_AREAS = 16
};

struct recording {
    uint8_t *bytes;
    size_t length, room;
    /* The number of bytes and of lines of the preamble. It is a base if the version is 3. */
    size_t front_length, front_lines;
    bool has_base;
    /* The areas of the configuration. */
    uint32_t areas[MOST_AREAS];
    size_t area_count;
};

enum event_kind {
    EVENT_INSTALL,
    EVENT_FLUSH,
    EVENT_PURGE,
    EVENT_INTERFACE,
    EVENT_RANGE_SET,
    EVENT_RANGE_DROP,
    EVENT_SECOND,
    EVENT_ROLL,
    EVENT_LOOKUP
};

/* The content of a line. An event has some of these fields. */
struct event {
    enum event_kind kind;
    abr_scope scope;
    abr_key key;
    abr_prefix prefix;
    uint32_t area, address, peer;
    uint8_t id;
    bool up, advertise;
    size_t lsa_length;
    uint8_t lsa[LSA_ROOM];
};

/* The position of a reader: the number of bytes and of lines before it. */
struct place {
    size_t start, line;
};

/* Reads the file into a recording whose fields are 0, and finds its preamble. After a fault too,
 * `free_recording` frees the memory. */
int read_recording(const char *file, struct recording *recording);
void free_recording(struct recording *recording);

/* Returns the position of the first event. */
struct place first_place(const struct recording *recording);

/* Reads the next event. Returns ABR_CURRENT, or the fault of its line. There has to be one:
 * `start` is less than the length of the recording. */
uint32_t next_event(const struct recording *recording, struct place *place, struct event *event);

#endif
