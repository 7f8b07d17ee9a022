/* plain_search.h: what the plain programs for SCTE 20 and GA94 share: refusals, the search for start codes, stuffing. */
#ifndef PLAIN_SEARCH_H
#define PLAIN_SEARCH_H

#include "plain_area.h"

/* Of a writer: the value, the length or the room. */
static inline captions_written refuse(uint8_t number)
{
    return (captions_written){.refusal = {number, 0}};
}

/* What reading a unit says: 0 twice, or a number and the item's first bit, counted from that of the start code. */
static inline captions_refusal at_bit(uint8_t number, size_t bit)
{
    return (captions_refusal){number, bit};
}

/* The same with the bit counted from the area's first one, for a unit at byte `start`. */
static inline captions_refusal in_area(captions_refusal refusal, size_t start)
{
    refusal.place += 8 * start;
    return refusal;
}

/* In the machine's order, which is nothing to a test for zeros. */
static inline uint64_t load_eight(const uint8_t *s)
{
    uint64_t eight;
    memcpy(&eight, s, 8);
    return eight;
}

/* Eight bytes at a time and no early exit, so that compilers take even more. */
static inline bool all_zero(const uint8_t *s, size_t len)
{
    uint64_t any = 0;
    size_t i = 0;
    for (; i + 8 <= len; i += 8) {
        any |= load_eight(s + i);
    }
    for (; i < len; i++) {
        any |= s[i];
    }
    return any == 0;
}

/* 19: bits of zeros were asked for from bit `from` of s on, and one of them is 1. */
static inline captions_refusal at_first_one(const uint8_t *s, size_t from)
{
    while ((s[from / 8] & 0x80 >> from % 8) == 0) {
        from++;
    }
    return at_bit(CAPTIONS_ZEROS, from);
}

/* The first of i, i + 3, i + 6 and so on with a byte of 0 or 1, or an index that is not below len. Four to a turn. */
static inline size_t past_others(const uint8_t *s, size_t i, size_t len)
{
    for (; i + 9 < len; i += 12) {
        if (s[i] <= 1) {
            return i;
        }
        if (s[i + 3] <= 1) {
            return i + 3;
        }
        if (s[i + 6] <= 1) {
            return i + 6;
        }
        if (s[i + 9] <= 1) {
            return i + 9;
        }
    }
    while (i < len && s[i] > 1) {
        i += 3;
    }
    return i;
}

/* The first byte from i on that is not 0, or an index that is not below len. Mostly it is near; long runs go by eights. */
static inline size_t past_zeros(const uint8_t *s, size_t i, size_t len)
{
    if (i + 1 < len && s[i + 1] != 0) {
        return s[i] == 0 ? i + 1 : i;
    }
    while (i + 8 <= len && load_eight(s + i) == 0) {
        i += 8;
    }
    while (i < len && s[i] == 0) {
        i++;
    }
    return i;
}

/* Looks where the 01 may be. A byte there that is not 0 rules the next two places out too, since two zeros precede 01. */
static inline size_t next_start(const uint8_t *s, size_t from, size_t len)
{
    for (size_t i = from + 2;; i += 3) {
        i = past_zeros(s, past_others(s, i, len), len);
        if (i >= len) {
            return len;
        }
        if (s[i] == 1 && s[i - 1] == 0 && s[i - 2] == 0) {
            return i - 2;
        }
    }
}

/* An area with the bytes from old.start to old.end given up for a unit and z zero bytes behind it. */
static inline captions_written put_unit(const uint8_t *area, size_t len, spot old, const uint8_t *unit, size_t unit_len,
                                        size_t z, uint8_t *out, size_t room)
{
    size_t rest = len - old.end;
    size_t whole = old.start + unit_len + z + rest;
    if (whole > CAPTIONS_AREA_BYTES) {
        return refuse(CAPTIONS_TOO_LONG);
    }
    if (whole > room) {
        return refuse(CAPTIONS_NO_ROOM);
    }
    memcpy(out, area, old.start);
    memcpy(out + old.start, unit, unit_len);
    memset(out + old.start + unit_len, 0, z);
    memcpy(out + old.start + unit_len + z, area + old.end, rest);
    return (captions_written){.len = whole};
}

/* A unit by itself, and z zero bytes behind it. */
static inline captions_written put_alone(const uint8_t *unit, size_t unit_len, size_t z, uint8_t *out, size_t room)
{
    size_t len = unit_len + z;
    if (len > CAPTIONS_AREA_BYTES) {
        return refuse(CAPTIONS_TOO_LONG);
    }
    if (len > room) {
        return refuse(CAPTIONS_NO_ROOM);
    }
    memcpy(out, unit, unit_len);
    memset(out + unit_len, 0, z);
    return (captions_written){.len = len};
}

#endif
