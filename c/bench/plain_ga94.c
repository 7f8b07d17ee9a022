/* plain_ga94.c: GA94 in a picture area; see plain.h. */
#include "plain_search.h"

enum {
    FRONT = 11, /* bytes of a unit before its constructs, start code and em_data among them */
    CONSTRUCT = 3,
    FLAGS = 9, /* the byte with the flags and cc_count */
    UNIT_BYTES = FRONT + CONSTRUCT * CAPTIONS_RECORDS + 1
};

/* ATSC_identifier, and user_data_type_code 03 or nothing. */
static bool is_ga94(const uint8_t *body, size_t len)
{
    return len >= 4 && memcmp(body, "GA94", 4) == 0 && (len == 4 || body[4] == 3);
}

/* ---- Reading ---- */

/* The n constructs of the unit s. The item that is missing or wrong begins with a byte. */
static captions_refusal read_constructs(const uint8_t *s, size_t len, size_t n, captions_ga94_record *records)
{
    size_t at = FRONT;
    for (size_t i = 0; i < n; i++, at += CONSTRUCT) {
        if (len - at < CONSTRUCT) {
            return at_bit(CAPTIONS_ENDS, 8 * at);
        }
        if (s[at] < 0xF8) {
            return at_bit(CAPTIONS_MARKER, 8 * at);
        }
        records[i] = (captions_ga94_record){s[at] >> 2 & 1, s[at] & 3, s[at + 1], s[at + 2]};
    }
    return at_bit(CAPTIONS_ACCEPTED, 0);
}

/*
 * Reads the unit s from left to right. Where it is refused, what is in `unit` and `records` means nothing. Before the
 * constructs an item is missing where the unit ends: each fills a byte.
 */
static captions_refusal read_unit(const uint8_t *s, size_t len, captions_ga94_unit *unit, captions_ga94_record *records)
{
    if (len <= FLAGS) {
        return at_bit(CAPTIONS_ENDS, 8 * len);
    }
    uint8_t flags = s[FLAGS];
    unit->process_em_data_flag = flags >> 7;
    unit->process_cc_data_flag = flags >> 6 & 1;
    unit->n = flags & 31;
    if ((flags & 0x20) != 0) {
        return at_bit(CAPTIONS_ADDITIONAL_DATA, 8 * FLAGS + 2);
    }
    if (len < FRONT) {
        return at_bit(CAPTIONS_ENDS, 8 * len);
    }
    unit->em_data = s[FLAGS + 1];
    captions_refusal refusal = read_constructs(s, len, unit->n, records);
    if (refusal.number != CAPTIONS_ACCEPTED) {
        return refusal;
    }
    size_t closing = FRONT + CONSTRUCT * unit->n;
    size_t content = closing + 1;
    if (len < content) {
        return at_bit(CAPTIONS_ENDS, 8 * closing);
    }
    if (s[closing] != 0xFF) {
        return at_bit(CAPTIONS_MARKER, 8 * closing);
    }
    if (!all_zero(s + content, len - content)) {
        return at_first_one(s, 8 * content);
    }
    unit->z = len - content;
    return at_bit(CAPTIONS_ACCEPTED, 0);
}

captions_ga94_unit plain_ga94_read(const uint8_t *area, size_t len, captions_ga94_record records[static CAPTIONS_RECORDS])
{
    captions_ga94_unit unit = {0};
    captions_ga94_record held[CAPTIONS_RECORDS]; /* so that a refusal leaves the lent ones alone */
    spot at = find_unit(area, len, next_start, is_ga94);
    if (at.number != CAPTIONS_ACCEPTED) {
        return (captions_ga94_unit){.refusal = {at.number, 0}};
    }
    if (at.present) {
        captions_refusal refusal = read_unit(area + at.start, at.end - at.start, &unit, held);
        if (refusal.number != CAPTIONS_ACCEPTED) {
            return (captions_ga94_unit){.refusal = in_area(refusal, at.start)};
        }
        unit.present = true;
    }
    memcpy(records, held, unit.n * sizeof held[0]);
    memset(records + unit.n, 0, (CAPTIONS_RECORDS - unit.n) * sizeof held[0]);
    return unit;
}

/* ---- Writing ---- */

/* A value without its records. */
typedef struct numbers {
    uint32_t em_flag;
    uint32_t cc_flag;
    uint32_t additional;
    uint32_t em_data;
    size_t n;
    size_t z;
} numbers;

/* 15 of the whole value, 16, then 15 of each record; the unit without its stuffing is laid out beside them. */
static uint8_t lay_unit(const numbers *v, const captions_ga94_record *records, uint8_t unit[static UNIT_BYTES])
{
    static const uint8_t front[FLAGS] = {0, 0, 1, 0xB2, 'G', 'A', '9', '4', 3};
    if (v->n > CAPTIONS_RECORDS || v->em_flag > 1 || v->cc_flag > 1 || v->additional > 1 || v->em_data > 255 ||
        v->z > CAPTIONS_AREA_BYTES) {
        return CAPTIONS_UNHOLDABLE;
    }
    if (v->additional == 1) {
        return CAPTIONS_ADDITIONAL_DATA;
    }
    memcpy(unit, front, FLAGS);
    unit[FLAGS] = (uint8_t)(v->em_flag << 7 | v->cc_flag << 6 | v->n);
    unit[FLAGS + 1] = (uint8_t)v->em_data;
    uint8_t *s = unit + FRONT;
    for (size_t i = 0; i < v->n; i++, s += CONSTRUCT) {
        captions_ga94_record r = records[i];
        if (r.cc_valid > 1 || r.cc_type > 3) {
            return CAPTIONS_UNHOLDABLE;
        }
        s[0] = (uint8_t)(0xF8 | r.cc_valid << 2 | r.cc_type);
        s[1] = r.cc_data_1;
        s[2] = r.cc_data_2;
    }
    *s = 0xFF;
    return CAPTIONS_ACCEPTED;
}

static size_t unit_len(size_t n)
{
    return FRONT + CONSTRUCT * n + 1;
}

captions_written plain_ga94_write(uint32_t process_em_data_flag, uint32_t process_cc_data_flag,
                                  uint32_t additional_data_flag, uint32_t em_data, size_t n, size_t z,
                                  const captions_ga94_record records[static CAPTIONS_RECORDS], uint8_t *out, size_t room)
{
    numbers v = {process_em_data_flag, process_cc_data_flag, additional_data_flag, em_data, n, z};
    uint8_t unit[UNIT_BYTES];
    uint8_t number = lay_unit(&v, records, unit);
    if (number != CAPTIONS_ACCEPTED) {
        return refuse(number);
    }
    return put_alone(unit, unit_len(n), z, out, room);
}

captions_written plain_ga94_replace(const uint8_t *area, size_t len, uint32_t process_em_data_flag,
                                    uint32_t process_cc_data_flag, uint32_t additional_data_flag, uint32_t em_data,
                                    size_t n, size_t z, const captions_ga94_record records[static CAPTIONS_RECORDS],
                                    uint8_t *out, size_t room)
{
    spot old = find_unit(area, len, next_start, is_ga94);
    if (old.number != CAPTIONS_ACCEPTED) {
        return refuse(old.number);
    }
    if (old.present) {
        captions_ga94_unit unit;
        captions_ga94_record held[CAPTIONS_RECORDS];
        captions_refusal refusal = read_unit(area + old.start, old.end - old.start, &unit, held);
        if (refusal.number != CAPTIONS_ACCEPTED) {
            return (captions_written){.refusal = in_area(refusal, old.start)};
        }
    }
    numbers v = {process_em_data_flag, process_cc_data_flag, additional_data_flag, em_data, n, z};
    uint8_t unit[UNIT_BYTES];
    uint8_t number = lay_unit(&v, records, unit);
    if (number != CAPTIONS_ACCEPTED) {
        return refuse(number);
    }
    return put_unit(area, len, old, unit, unit_len(n), z, out, room);
}
