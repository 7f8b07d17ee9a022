/*
 * model_ga94.c: ATSC caption data in a picture area, from documents alone: 02, requests 1 and 2; Syntax 3 of Table 3 in 003,
 * which Table 5 repeats; and 01 for the area around the unit, the numbers of refusals and the order of checks.
 */
#include "model.h"

#include <string.h>

#include "model_area.h"

enum {
    START_BYTES = 4,      /* 00 00 01 B2 */
    IDENTIFIER_BYTES = 4, /* ATSC_identifier */
    TYPE_CC = 0x03,       /* user_data_type_code */
    CONSTRUCT_BITS = 24,
    MARKER_BITS = 0x1F,   /* the five ones at the front of a construct */
    CLOSING_BYTE = 0xFF,  /* the eight ones behind the last construct */
    LONGEST_CONTENT = IDENTIFIER_BYTES + 3 + 3 * CAPTIONS_RECORDS + 1, /* 3: the type, the flags with the count, em_data */
    LONGEST_UNIT = START_BYTES + LONGEST_CONTENT + CAPTIONS_AREA_BYTES /* as much stuffing as 15 lets pass */
};

static const uint8_t start_code[START_BYTES] = {0x00, 0x00, 0x01, 0xB2};
static const uint8_t identifier[IDENTIFIER_BYTES] = {0x47, 0x41, 0x39, 0x34};

/*
 * Which units are ours (02, request 1). The whole identifier must be there. Behind it stands our type, or nothing at all: such
 * a unit is ours and cut short, not foreign. Any other type is foreign, a 00 too, though it may have been meant as stuffing.
 */
static bool is_ga94_unit(const uint8_t *body, size_t len)
{
    if (len < IDENTIFIER_BYTES || memcmp(body, identifier, IDENTIFIER_BYTES) != 0)
        return false;
    return len == IDENTIFIER_BYTES || body[IDENTIFIER_BYTES] == TYPE_CC;
}

/* ---- Reading: Syntax 3 from left to right, 5 before each item's own test (01, "Which refusal comes first") ---- */

/* The three flags and cc_count fill one byte, so that they are there together or not at all. */
static captions_refusal read_flags_and_count(bit_source *bits, captions_ga94_unit *unit)
{
    size_t third_flag;

    if (bits_left(bits) < 8)
        return refused_at(5, bits->at);
    unit->process_em_data_flag = take_bits(bits, 1);
    unit->process_cc_data_flag = take_bits(bits, 1);
    third_flag = bits->at;
    unit->additional_data_flag = take_bits(bits, 1);
    unit->n = take_bits(bits, 5);
    /* The additional data that this flag announces has no length and no rule. 02 puts the refusal behind the count. */
    return unit->additional_data_flag == 1 ? refused_at(16, third_flag) : not_refused();
}

/*
 * A construct that is cut short is 5 as a whole, even where the part that is left has a wrong marker. The five marker bits are
 * one item: the place is the first of them, whichever is wrong.
 */
static captions_refusal read_construct(bit_source *bits, captions_ga94_record *record)
{
    size_t began = bits->at;

    if (bits_left(bits) < CONSTRUCT_BITS)
        return refused_at(5, began);
    if (take_bits(bits, 5) != MARKER_BITS)
        return refused_at(18, began);
    record->cc_valid = (uint8_t)take_bits(bits, 1);
    record->cc_type = (uint8_t)take_bits(bits, 2);
    record->cc_data_1 = (uint8_t)take_bits(bits, 8); /* not reversed, other than in SCTE 20 */
    record->cc_data_2 = (uint8_t)take_bits(bits, 8);
    return not_refused();
}

/* cc_count says how many constructs there are, whatever process_cc_data_flag says: the flag is carried and rules nothing. */
static captions_refusal read_constructs(bit_source *bits, size_t n, captions_ga94_record *records)
{
    for (size_t i = 0; i < n; i++) {
        captions_refusal refused = read_construct(bits, &records[i]);
        if (refused.number != 0)
            return refused;
    }
    return not_refused();
}

/* The closing byte, then z zero bytes up to the end of the unit. The content has whole bytes, so nothing is aligned. */
static captions_refusal read_end(bit_source *bits, captions_ga94_unit *unit)
{
    size_t began = bits->at;

    if (bits_left(bits) < 8)
        return refused_at(5, began);
    if (take_bits(bits, 8) != CLOSING_BYTE)
        return refused_at(18, began);
    unit->z = bits_left(bits) / 8;
    return take_zeros(bits);
}

static captions_refusal read_content(bit_source *bits, captions_ga94_unit *unit, captions_ga94_record *records)
{
    captions_refusal refused;

    take_bits(bits, 8 * IDENTIFIER_BYTES); /* it is what makes the unit ours */
    if (bits_left(bits) < 8)
        return refused_at(5, bits->at);
    take_bits(bits, 8); /* user_data_type_code: with another one the unit is not ours */
    refused = read_flags_and_count(bits, unit);
    if (refused.number != 0)
        return refused;
    if (bits_left(bits) < 8)
        return refused_at(5, bits->at);
    unit->em_data = take_bits(bits, 8);
    refused = read_constructs(bits, unit->n, records);
    return refused.number != 0 ? refused : read_end(bits, unit);
}

captions_ga94_unit model_ga94_read(const uint8_t *area, size_t len, captions_ga94_record *records)
{
    captions_ga94_unit unit = {0};
    captions_ga94_record read[CAPTIONS_RECORDS] = {{0}};
    unit_span span;
    captions_refusal refused = {model_find_unit(area, len, is_ga94_unit, &span), 0};

    if (refused.number == 0 && span.found) {
        bit_source bits = model_body_bits(area, span);
        unit.present = true;
        refused = read_content(&bits, &unit, read);
    }
    if (refused.number != 0)
        return (captions_ga94_unit){.refusal = refused};
    memcpy(records, read, sizeof read); /* zeros behind the n records, and everywhere where no unit of ours stands */
    return unit;
}

/* ---- Writing: what a value must be. It is held as reading answers it, without refusal and present. ---- */

static bool holds_whole_value(const captions_ga94_unit *value)
{
    return value->process_em_data_flag <= 1 && value->process_cc_data_flag <= 1 && value->additional_data_flag <= 1 &&
           value->em_data <= 255 && value->n <= CAPTIONS_RECORDS && value->z <= CAPTIONS_AREA_BYTES;
}

/* 16 stands between the 15 of the whole value and the 15 of a record. No order, field or line is judged in this carriage. */
static uint8_t judge_value(const captions_ga94_unit *value, const captions_ga94_record *records)
{
    if (!holds_whole_value(value))
        return 15;
    if (value->additional_data_flag == 1)
        return 16;
    for (size_t i = 0; i < value->n; i++)
        if (records[i].cc_valid > 1 || records[i].cc_type > 3)
            return 15;
    return 0;
}

/* ---- Writing: the bytes of Syntax 3 ---- */

typedef struct byte_sink {
    uint8_t bytes[LONGEST_UNIT];
    size_t len;
} byte_sink;

static void put_byte(byte_sink *sink, unsigned byte)
{
    sink->bytes[sink->len] = (uint8_t)byte;
    sink->len++;
}

static void put_bytes(byte_sink *sink, const uint8_t *bytes, size_t count)
{
    for (size_t i = 0; i < count; i++)
        put_byte(sink, bytes[i]);
}

static void put_flags_and_count(byte_sink *sink, const captions_ga94_unit *value)
{
    put_byte(sink, value->process_em_data_flag << 7 | value->process_cc_data_flag << 6 | value->additional_data_flag << 5 |
                       (unsigned)value->n);
}

static void put_construct(byte_sink *sink, const captions_ga94_record *record)
{
    put_byte(sink, (unsigned)MARKER_BITS << 3 | (unsigned)record->cc_valid << 2 | record->cc_type);
    put_byte(sink, record->cc_data_1);
    put_byte(sink, record->cc_data_2);
}

/* The layout is made here and not taken from layout.c, so that this model and the generators of inputs check each other. */
static void lay_out(byte_sink *sink, const captions_ga94_unit *value, const captions_ga94_record *records)
{
    sink->len = 0;
    put_bytes(sink, start_code, START_BYTES);
    put_bytes(sink, identifier, IDENTIFIER_BYTES);
    put_byte(sink, TYPE_CC);
    put_flags_and_count(sink, value);
    put_byte(sink, value->em_data);
    for (size_t i = 0; i < value->n; i++)
        put_construct(sink, &records[i]);
    put_byte(sink, CLOSING_BYTE);
    for (size_t i = 0; i < value->z; i++)
        put_byte(sink, 0x00);
}

/* The value's refusals, then its layout in the place of `span`. 1 and 14 come last: they need the length of the result. */
static captions_written put_value(const uint8_t *area, size_t len, unit_span span, const captions_ga94_unit *value,
                                  const captions_ga94_record *records, uint8_t *out, size_t room)
{
    static byte_sink sink;
    uint8_t refused = judge_value(value, records);

    if (refused != 0)
        return model_refusal(refused, 0);
    lay_out(&sink, value, records);
    return model_put_unit(area, len, span, sink.bytes, sink.len, out, room);
}

captions_written model_ga94_write(uint32_t process_em_data_flag, uint32_t process_cc_data_flag, uint32_t additional_data_flag,
                                  uint32_t em_data, size_t n, size_t z, const captions_ga94_record *records, uint8_t *out,
                                  size_t room)
{
    static const uint8_t nothing[1] = {0};
    unit_span nowhere = {false, 0, 0};
    captions_ga94_unit value = {.process_em_data_flag = process_em_data_flag, .process_cc_data_flag = process_cc_data_flag,
                                .additional_data_flag = additional_data_flag, .em_data = em_data, .n = n, .z = z};

    return put_value(nothing, 0, nowhere, &value, records, out, room);
}

/*
 * 01's rule for replacing, with GA94 in place of SCTE 20: the old unit gives way with its stuffing, and where there is none the
 * new one goes to the end. The area's own refusals come before those of the value, with the place that reading gives.
 */
captions_written model_ga94_replace(const uint8_t *area, size_t len, uint32_t process_em_data_flag,
                                    uint32_t process_cc_data_flag, uint32_t additional_data_flag, uint32_t em_data, size_t n,
                                    size_t z, const captions_ga94_record *records, uint8_t *out, size_t room)
{
    captions_ga94_record old_records[CAPTIONS_RECORDS];
    captions_ga94_unit old = model_ga94_read(area, len, old_records);
    captions_ga94_unit value = {.process_em_data_flag = process_em_data_flag, .process_cc_data_flag = process_cc_data_flag,
                                .additional_data_flag = additional_data_flag, .em_data = em_data, .n = n, .z = z};
    unit_span span;

    if (old.refusal.number != 0)
        return model_refusal(old.refusal.number, old.refusal.place);
    model_find_unit(area, len, is_ga94_unit, &span);
    if (!span.found)
        span.start = span.end = len;
    return put_value(area, len, span, &value, records, out, room);
}
