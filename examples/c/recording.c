#include "recording.h"

#include <stdio.h>
#include <stdlib.h>
#include <string.h>

/* ---- The words of a line */

/* A line, which is read from left to right. `fits` stays false after the first fault. */
struct line {
    const uint8_t *at, *end;
    bool fits;
};

/* Takes the text, if it is next on the line. */
static bool takes(struct line *line, const char *text)
{
    size_t length = strlen(text);

    if ((size_t)(line->end - line->at) < length || memcmp(line->at, text, length) != 0)
        return false;
    line->at += length;
    return true;
}

static void take(struct line *line, const char *text)
{
    if (!takes(line, text))
        line->fits = false;
}

/* Takes one of two texts, and returns true if it is the first. */
static bool take_either(struct line *line, const char *first, const char *second)
{
    bool is_first = takes(line, first);

    if (!is_first)
        take(line, second);
    return is_first;
}

static bool has_digit(const struct line *line)
{
    return line->at < line->end && *line->at >= '0' && *line->at <= '9';
}

/* Takes a number of one to three digits, without zeros before it. */
static uint8_t take_number(struct line *line, unsigned least, unsigned most)
{
    const uint8_t *begin = line->at;
    unsigned number = 0;

    while (has_digit(line) && line->at - begin < 3)
        number = number * 10 + (unsigned)(*line->at++ - '0');
    if (line->at == begin || (*begin == '0' && line->at - begin > 1) || number < least || number > most) {
        line->fits = false;
        return 0;
    }
    return (uint8_t)number;
}

static uint32_t take_address(struct line *line)
{
    uint32_t address = take_number(line, 0, 255);
    int n;

    for (n = 0; n < 3; n++) {
        take(line, ".");
        address = address << 8 | take_number(line, 0, 255);
    }
    return address;
}

/* Takes a network. No bit past its length is 1. */
static abr_prefix take_prefix(struct line *line)
{
    abr_prefix prefix;

    prefix.address = take_address(line);
    take(line, "/");
    prefix.length = take_number(line, 0, 32);
    if (prefix.length < 32 && prefix.address << prefix.length != 0)
        line->fits = false;
    return prefix;
}

static abr_scope take_scope(struct line *line)
{
    abr_scope scope;

    scope.as = takes(line, "as");
    scope.area = scope.as ? 0 : take_address(line);
    take(line, " ");
    return scope;
}

static abr_key take_key(struct line *line)
{
    abr_key key;

    key.type = take_number(line, 1, 5);
    take(line, " ");
    key.id = take_address(line);
    take(line, " ");
    key.router = take_address(line);
    return key;
}

static unsigned take_digit(struct line *line)
{
    unsigned byte = line->at < line->end ? *line->at++ : 0u;

    if (byte >= '0' && byte <= '9')
        return byte - '0';
    if (byte >= 'a' && byte <= 'f')
        return byte - 'a' + 10;
    line->fits = false;
    return 0;
}

/* Takes the bytes of an LSA, to the end of the line. If there are too many it keeps the first. */
static void take_lsa(struct line *line, struct event *event)
{
    event->lsa_length = 0;
    while (line->at < line->end) {
        unsigned byte = take_digit(line) << 4;
        byte |= take_digit(line);
        if (event->lsa_length < LSA_ROOM)
            event->lsa[event->lsa_length++] = (uint8_t)byte;
    }
}

/* ---- Events */

static void take_interface(struct line *line, struct event *event)
{
    event->id = take_number(line, 0, 255);
    take(line, " ");
    event->area = take_address(line);
    take(line, " ");
    event->address = take_address(line);
    take(line, " ");
    event->peer = take_address(line);
    take(line, " ");
    event->up = take_either(line, "up", "down");
}

static void take_range(struct line *line, struct event *event)
{
    event->area = take_address(line);
    take(line, " ");
    event->prefix = take_prefix(line);
    if (event->kind == EVENT_RANGE_SET) {
        take(line, " ");
        event->advertise = take_either(line, "advertise", "hide");
    }
}

/* Takes the first word of an event, and the space after it. */
static enum event_kind take_kind(struct line *line)
{
    static const char *const WORDS[] = {"install ",   "flush ",      "purge ", "interface ",
                                        "range-set ", "range-drop ", "second", "roll"};
    int n;

    for (n = 0; n < EVENT_LOOKUP; n++) {
        if (takes(line, WORDS[n]))
            return (enum event_kind)n;
    }
    take(line, "lookup ");
    return EVENT_LOOKUP;
}

/* Reads an event, and returns true if the line is one. */
static bool read_event(struct line line, struct event *event)
{
    event->kind = take_kind(&line);
    switch (event->kind) {
    case EVENT_INSTALL:
        event->scope = take_scope(&line);
        take_lsa(&line, event);
        break;
    case EVENT_FLUSH:
    case EVENT_PURGE:
        event->scope = take_scope(&line);
        event->key = take_key(&line);
        break;
    case EVENT_INTERFACE:
        take_interface(&line, event);
        break;
    case EVENT_RANGE_SET:
    case EVENT_RANGE_DROP:
        take_range(&line, event);
        break;
    case EVENT_LOOKUP:
        event->address = take_address(&line);
        break;
    case EVENT_SECOND:
    case EVENT_ROLL:
        break;
    }
    return line.fits && line.at == line.end;
}

/* Only version 3 has ranges that change, and rolls. */
static bool is_of_version_3(const struct event *event)
{
    return event->kind == EVENT_RANGE_SET || event->kind == EVENT_RANGE_DROP || event->kind == EVENT_ROLL;
}

/* ---- Files */

static int read_stream(FILE *stream, struct recording *recording)
{
    size_t count;

    do {
        void *moved = with_room(recording->bytes, &recording->room, recording->length + 1, 1);
        if (moved == NULL)
            return say_no_memory();
        recording->bytes = (uint8_t *)moved;
        count = fread(recording->bytes + recording->length, 1, recording->room - recording->length, stream);
        recording->length += count;
    } while (count > 0);
    return ferror(stream) ? say(FAULT, "cannot read the recording") : DONE;
}

/* Returns the line that begins there. It fits if it has its line feed. */
static struct line line_at(const struct recording *recording, size_t start)
{
    const uint8_t *begin = recording->bytes + start;
    const uint8_t *feed = (const uint8_t *)memchr(begin, '\n', recording->length - start);
    struct line line;

    line.at = begin;
    line.end = feed == NULL ? recording->bytes + recording->length : feed;
    line.fits = feed != NULL;
    return line;
}

/* Moves to the end of the line, and past its line feed if there is one. */
static void pass(const struct recording *recording, struct place *place, struct line line)
{
    place->start = (size_t)(line.end - recording->bytes) + (line.fits ? 1 : 0);
    place->line++;
}

static bool is_of_front(struct line line)
{
    return takes(&line, "abr ") || takes(&line, "router ") || takes(&line, "compat ") || takes(&line, "serial ")
        || takes(&line, "area ") || takes(&line, "range ") || takes(&line, "has ");
}

static void find_front(struct recording *recording)
{
    struct line line = line_at(recording, 0);
    struct place place = {0, 0};

    recording->has_base = takes(&line, "abr 3");
    while (place.start < recording->length) {
        line = line_at(recording, place.start);
        if (!is_of_front(line))
            break;
        pass(recording, &place, line);
        if (takes(&line, "area ") && recording->area_count < MOST_AREAS)
            recording->areas[recording->area_count++] = take_address(&line);
    }
    recording->front_length = place.start;
    recording->front_lines = place.line;
}

int read_recording(const char *file, struct recording *recording)
{
    FILE *stream = fopen(file, "rb");
    int status;

    if (stream == NULL)
        return say(FAULT, "cannot open the recording");
    status = read_stream(stream, recording);
    fclose(stream);
    if (status == DONE)
        find_front(recording);
    return status;
}

void free_recording(struct recording *recording)
{
    free(recording->bytes);
}

struct place first_place(const struct recording *recording)
{
    struct place place;

    place.start = recording->front_length;
    place.line = recording->front_lines;
    return place;
}

uint32_t next_event(const struct recording *recording, struct place *place, struct event *event)
{
    struct line line = line_at(recording, place->start);

    pass(recording, place, line);
    if (!line.fits)
        return ABR_TRUNCATED;
    if (!read_event(line, event))
        return is_of_front(line) ? ABR_ORDER : ABR_LINE;
    return is_of_version_3(event) && !recording->has_base ? ABR_LINE : ABR_CURRENT;
}
