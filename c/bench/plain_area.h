/*
 * plain_area.h: what plain.c, plain_memchr.c and plain_ga94.c share. They differ in how the next start code is searched
 * for, and in which units are theirs.
 */
#ifndef PLAIN_AREA_H
#define PLAIN_AREA_H

#include "plain.h"

#include <string.h>

enum { START_BYTES = 4 };

/* Where the unit stands, or the area's end twice. */
typedef struct spot {
    uint8_t number;
    bool present;
    size_t start;
    size_t end;
} spot;

/* The first 00 00 01 of s from index `from` on, or the end. */
typedef size_t search(const uint8_t *s, size_t from, size_t len);

/* Whether the unit with this body is the one to find. */
typedef bool mine(const uint8_t *body, size_t len);

/* What a data group has behind its 03 ("Picture area"). */
static inline bool is_group_type(unsigned byte)
{
    return byte == 0x09 || byte == 0x0A;
}

static inline bool is_caption(const uint8_t *body, size_t len)
{
    return len > 0 && body[0] == 3 && !(len > 1 && is_group_type(body[1]));
}

/* 1, 2, 3, 4 in this order: a second unit is told only when every start code was seen. */
static inline spot find_unit(const uint8_t *s, size_t len, search *next_start, mine *is_mine)
{
    static const uint8_t start_code[START_BYTES] = {0, 0, 1, 0xB2};
    spot found = {.start = len, .end = len};
    size_t count = 0;
    if (len > CAPTIONS_AREA_BYTES) {
        return (spot){.number = CAPTIONS_TOO_LONG};
    }
    if (len > 0 && (len < START_BYTES || memcmp(s, start_code, START_BYTES) != 0)) {
        return (spot){.number = CAPTIONS_NO_START};
    }
    for (size_t at = 0; at < len;) {
        if (len - at < START_BYTES || s[at + 3] != 0xB2) {
            return (spot){.number = CAPTIONS_START_CODE};
        }
        size_t body = at + START_BYTES;
        size_t next = next_start(s, body, len);
        if (is_mine(s + body, next - body)) {
            count++;
            found.start = at;
            found.end = next;
        }
        at = next;
    }
    if (count > 1) {
        return (spot){.number = CAPTIONS_SECOND_UNIT};
    }
    found.present = count == 1;
    return found;
}

/* The answer of plain_area_read once find_unit has given `at`. */
captions_unit plain_read_found(const uint8_t *area, spot at, captions_record records[static CAPTIONS_RECORDS]);

#endif
