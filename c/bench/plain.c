/* plain.c: SCTE 20 in a picture area; see plain.h. Sections named in comments are those of docs/RULES.md. */
#include "plain_records.h"
#include "plain_reversed.h"
#include "plain_search.h"

enum {
    CONTENT_BYTES = 104, /* with 31 constructs */
    CONSTRUCTS = 21,     /* the bit of the body at which they begin */
    CONSTRUCT_BITS = 26,
    FIELD = 2, /* the bit of a construct at which its field_number begins, and so on */
    LINE = 4,
    MARKER = 25
};

/* ---- Bits ---- */

static uint64_t load_be64(const uint8_t *s)
{
    return (uint64_t)s[0] << 56 | (uint64_t)s[1] << 48 | (uint64_t)s[2] << 40 | (uint64_t)s[3] << 32 |
           (uint64_t)s[4] << 24 | (uint64_t)s[5] << 16 | (uint64_t)s[6] << 8 | s[7];
}

static void store_be32(uint8_t *out, uint32_t x)
{
    out[0] = (uint8_t)(x >> 24);
    out[1] = (uint8_t)(x >> 16);
    out[2] = (uint8_t)(x >> 8);
    out[3] = (uint8_t)x;
}

/* The bits before bit `end` of s, the last of them lowest. Eight bytes must stand before the byte's end. */
static uint64_t bits_before(const uint8_t *s, size_t end)
{
    size_t bytes = (end + 7) / 8;
    return load_be64(s + bytes - 8) >> (8 * bytes - end);
}

/* ---- Picture area: records ---- */

/* The bit of a construct at which the item begins that judge_record refused behind the same record. */
static size_t item_of(uint8_t number, last before, captions_record r)
{
    if (number == CAPTIONS_FIFTH_PRIORITY) {
        return 0;
    }
    return number == CAPTIONS_ORDER && r.field_number == before.field ? LINE : FIELD;
}

/* The data bytes travel least significant bit first ("Picture area"). */
static captions_record record_of(uint32_t construct)
{
    return (captions_record){
        .cc_priority = construct >> 24 & 3,
        .field_number = construct >> 22 & 3,
        .line_offset = construct >> 17 & 31,
        .cc_data_1 = reversed[construct >> 9 & 255],
        .cc_data_2 = reversed[construct >> 1 & 255],
    };
}

static uint32_t construct_of(captions_record r)
{
    return (uint32_t)r.cc_priority << 24 | (uint32_t)r.field_number << 22 | (uint32_t)r.line_offset << 17 |
           (uint32_t)reversed[r.cc_data_1] << 9 | (uint32_t)reversed[r.cc_data_2] << 1 | 1;
}

/* ---- Picture area: reading ---- */

/* The n constructs of the unit s, which has `bits` bits with its start code. */
static captions_refusal read_constructs(const uint8_t *s, size_t bits, size_t n, captions_record *records)
{
    size_t begin = 8 * START_BYTES + CONSTRUCTS;
    last before = {0};
    for (size_t i = 0; i < n; i++, begin += CONSTRUCT_BITS) {
        if (bits < begin + CONSTRUCT_BITS) {
            return at_bit(CAPTIONS_ENDS, begin);
        }
        /* The start code stands before the body, so that eight bytes are always there. */
        uint32_t construct = (uint32_t)bits_before(s, begin + CONSTRUCT_BITS);
        records[i] = record_of(construct);
        uint8_t number = judge_record(&before, records[i]);
        if (number != CAPTIONS_ACCEPTED) {
            return at_bit(number, begin + item_of(number, before, records[i]));
        }
        if ((construct & 1) == 0) {
            return at_bit(CAPTIONS_MARKER, begin + MARKER);
        }
    }
    return at_bit(CAPTIONS_ACCEPTED, 0);
}

/* Reads the caption unit s from left to right. Where it is refused, what is in `unit` and `records` means nothing. */
static captions_refusal read_unit(const uint8_t *s, size_t len, captions_unit *unit, captions_record *records)
{
    if (len < START_BYTES + 2) {
        return at_bit(CAPTIONS_ENDS, 8 * (START_BYTES + 1));
    }
    unit->reserved = s[5] >> 1;
    unit->vbi_data_flag = s[5] & 1;
    unit->n = 0;
    size_t content = START_BYTES + 2;
    if (unit->vbi_data_flag == 1) {
        if (len < START_BYTES + 3) {
            return at_bit(CAPTIONS_ENDS, 8 * (START_BYTES + 2));
        }
        unit->n = s[6] >> 3;
        captions_refusal refusal = read_constructs(s, 8 * len, unit->n, records);
        if (refusal.number != CAPTIONS_ACCEPTED) {
            return refusal;
        }
        size_t count = 8 * START_BYTES + CONSTRUCTS + CONSTRUCT_BITS * unit->n;
        size_t end = count + 4;
        content = (end + 7) / 8;
        if (len < content) {
            return at_bit(CAPTIONS_ENDS, count);
        }
        if ((bits_before(s, end) & 15) != 0) {
            return at_bit(CAPTIONS_SAMPLED_VIDEO, count);
        }
        if ((s[content - 1] & ((1u << (8 * content - end)) - 1)) != 0) {
            return at_first_one(s, end);
        }
    }
    if (!all_zero(s + content, len - content)) {
        return at_first_one(s, 8 * content);
    }
    unit->z = len - content;
    return at_bit(CAPTIONS_ACCEPTED, 0);
}

static inline captions_unit read_found(const uint8_t *area, spot at, captions_record *records)
{
    captions_unit unit = {0};
    captions_record held[CAPTIONS_RECORDS]; /* so that a refusal leaves the lent ones alone */
    if (at.number != CAPTIONS_ACCEPTED) {
        return (captions_unit){.refusal = {at.number, 0}};
    }
    if (at.present) {
        captions_refusal refusal = read_unit(area + at.start, at.end - at.start, &unit, held);
        if (refusal.number != CAPTIONS_ACCEPTED) {
            return (captions_unit){.refusal = in_area(refusal, at.start)};
        }
        unit.present = true;
    }
    memcpy(records, held, unit.n * sizeof held[0]);
    memset(records + unit.n, 0, (CAPTIONS_RECORDS - unit.n) * sizeof held[0]);
    return unit;
}

captions_unit plain_area_read(const uint8_t *area, size_t len, captions_record records[static CAPTIONS_RECORDS])
{
    return read_found(area, find_unit(area, len, next_start, is_caption), records);
}

captions_unit plain_read_found(const uint8_t *area, spot at, captions_record records[static CAPTIONS_RECORDS])
{
    return read_found(area, at, records);
}

/* ---- Picture area: writing ---- */

/* A unit with its start code, but not its stuffing. A word more is there for the last store. */
typedef struct laid {
    uint8_t number;
    size_t len;
    uint8_t bytes[START_BYTES + CONTENT_BYTES + 4];
} laid;

/* cc_count, the constructs, and zeros up to a whole byte. */
static uint8_t lay_constructs(size_t n, const captions_record *records, laid *unit)
{
    uint64_t bits = n;
    unsigned width = 5;
    last before = {0};
    for (size_t i = 0; i < n; i++) {
        captions_record r = records[i];
        uint8_t number = judge_passed_record(&before, r);
        if (number != CAPTIONS_ACCEPTED) {
            return number;
        }
        bits = bits << CONSTRUCT_BITS | construct_of(r);
        width += CONSTRUCT_BITS;
        if (width >= 32) {
            width -= 32;
            store_be32(unit->bytes + unit->len, (uint32_t)(bits >> width));
            unit->len += 4;
        }
    }
    /* Up to 31 bits are left, and the four zeros of the sampled video count follow them. */
    bits <<= 4;
    width += 4;
    bits <<= 40 - width;
    unit->bytes[unit->len] = (uint8_t)(bits >> 32);
    store_be32(unit->bytes + unit->len + 1, (uint32_t)bits);
    unit->len += (width + 7) / 8;
    return CAPTIONS_ACCEPTED;
}

/* 15 of the whole value, then 15, 7, 8, 9 of each record; the unit is laid out beside them. */
static void lay_unit(uint32_t reserved, uint32_t flag, size_t n, size_t z, const captions_record *records, laid *unit)
{
    unit->number = CAPTIONS_UNHOLDABLE;
    if (n > CAPTIONS_RECORDS || reserved > 127 || flag > 1 || z > CAPTIONS_AREA_BYTES || (flag == 0 && n != 0)) {
        return;
    }
    uint32_t second = reserved << 1 | flag;
    if (is_group_type(second)) {
        return;
    }
    store_be32(unit->bytes, 0x000001B2);
    unit->bytes[4] = 3;
    unit->bytes[5] = (uint8_t)second;
    unit->len = START_BYTES + 2;
    unit->number = flag == 0 ? CAPTIONS_ACCEPTED : lay_constructs(n, records, unit);
}

captions_written plain_unit_write(uint32_t reserved, uint32_t vbi_data_flag, size_t n, size_t z,
                                  const captions_record records[static CAPTIONS_RECORDS], uint8_t *out, size_t room)
{
    laid unit;
    lay_unit(reserved, vbi_data_flag, n, z, records, &unit);
    if (unit.number != CAPTIONS_ACCEPTED) {
        return refuse(unit.number);
    }
    return put_alone(unit.bytes, unit.len, z, out, room);
}

captions_written plain_area_replace(const uint8_t *area, size_t len, uint32_t reserved, uint32_t vbi_data_flag,
                                    size_t n, size_t z, const captions_record records[static CAPTIONS_RECORDS],
                                    uint8_t *out, size_t room)
{
    spot old = find_unit(area, len, next_start, is_caption);
    if (old.number != CAPTIONS_ACCEPTED) {
        return refuse(old.number);
    }
    if (old.present) {
        captions_unit unit;
        captions_record held[CAPTIONS_RECORDS];
        captions_refusal refusal = read_unit(area + old.start, old.end - old.start, &unit, held);
        if (refusal.number != CAPTIONS_ACCEPTED) {
            return (captions_written){.refusal = in_area(refusal, old.start)};
        }
    }
    laid unit;
    lay_unit(reserved, vbi_data_flag, n, z, records, &unit);
    if (unit.number != CAPTIONS_ACCEPTED) {
        return refuse(unit.number);
    }
    return put_unit(area, len, old, unit.bytes, unit.len, z, out, room);
}
