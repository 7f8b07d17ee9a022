/*
 * model.c: SCTE 20 in a picture area by RULES. GA94 is in model_ga94.c, the packet and the payload in model_words.c, the data
 * field in model_pes.c, the reel in model_reel.c, film in model_film.c.
 */
#include "model.h"

#include <string.h>

#include "layout.h"
#include "model_area.h"

/* A caption unit is one whose body begins with 03 and is no data group. A unit may have no body. */
static bool is_caption_unit(const uint8_t *body, size_t len)
{
    return len > 0 && body[0] == 0x03 && !model_is_data_group(body, len);
}

/* ---- The content of a caption unit (RULES, the table; most significant bit first) ---- */

/* A data byte comes with its lowest bit first: bit i of the stream is worth 2 to the i. */
static uint8_t take_data(bit_source *bits)
{
    unsigned value = 0;

    for (unsigned i = 0; i < 8; i++)
        value += take_bit(bits) << i;
    return (uint8_t)value;
}

/* Record i is of a lower field than the one before it (000, 6.2, third requirement). */
static bool field_falls(const captions_record *records, size_t i)
{
    return i > 0 && records[i].field_number < records[i - 1].field_number;
}

/* It is of the same field, and of no higher line. */
static bool line_does_not_rise(const captions_record *records, size_t i)
{
    return i > 0 && records[i].field_number == records[i - 1].field_number &&
           records[i].line_offset <= records[i - 1].line_offset;
}

/* At most four records of one field have priority 0. */
static bool is_fifth_of_priority_0(const captions_record *records, size_t i)
{
    unsigned seen = 0;

    for (size_t j = 0; j <= i; j++)
        if (records[j].cc_priority == 0 && records[j].field_number == records[i].field_number)
            seen++;
    return records[i].cc_priority == 0 && seen > 4;
}

/* The checks 7, 8, 9 of record i, which reading and writing share. */
static uint8_t judge_record(const captions_record *records, size_t i)
{
    if (records[i].field_number == 0)
        return 7;
    if (field_falls(records, i) || line_does_not_rise(records, i))
        return 8;
    if (is_fifth_of_priority_0(records, i))
        return 9;
    return 0;
}

/* Where the items of a construct begin: bits of the area. */
typedef struct construct_bits {
    size_t cc_priority, field_number, line_offset, marker;
} construct_bits;

/* Takes the 26 bits and notes where each item began. Gives the marker. */
static unsigned take_construct(bit_source *bits, captions_record *record, construct_bits *began)
{
    began->cc_priority = bits->at;
    record->cc_priority = (uint8_t)take_bits(bits, 2);
    began->field_number = bits->at;
    record->field_number = (uint8_t)take_bits(bits, 2);
    began->line_offset = bits->at;
    record->line_offset = (uint8_t)take_bits(bits, 5);
    record->cc_data_1 = take_data(bits);
    record->cc_data_2 = take_data(bits);
    began->marker = bits->at;
    return take_bit(bits);
}

static captions_refusal read_construct(bit_source *bits, captions_record *records, size_t i)
{
    construct_bits began;
    unsigned marker;

    if (bits_left(bits) < 26)
        return refused_at(5, bits->at);
    marker = take_construct(bits, &records[i], &began);
    switch (judge_record(records, i)) {
    case 7:
        return refused_at(7, began.field_number);
    case 8: /* the field where it falls, else the line */
        return refused_at(8, field_falls(records, i) ? began.field_number : began.line_offset);
    case 9:
        return refused_at(9, began.cc_priority);
    default: /* the marker comes last */
        return marker == 1 ? not_refused() : refused_at(18, began.marker);
    }
}

static captions_refusal read_constructs(bit_source *bits, size_t n, captions_record *records)
{
    for (size_t i = 0; i < n; i++) {
        captions_refusal refused = read_construct(bits, records, i);
        if (refused.number != 0)
            return refused;
    }
    return not_refused();
}

/* The alignment is shorter than a byte, so that the whole bytes that are left are the stuffing. */
static captions_refusal read_rest(bit_source *bits, captions_unit *unit)
{
    unit->z = bits_left(bits) / 8;
    return take_zeros(bits);
}

/* What stands behind the constructs. */
static captions_refusal read_video_count(bit_source *bits, captions_unit *unit)
{
    size_t began = bits->at;

    if (bits_left(bits) < 4)
        return refused_at(5, began);
    if (take_bits(bits, 4) != 0) /* non_real_time_video_count */
        return refused_at(10, began);
    return read_rest(bits, unit);
}

static captions_refusal read_content(bit_source *bits, captions_unit *unit, captions_record *records)
{
    captions_refusal refused;

    take_bits(bits, 8); /* user_data_type_code: its 03 is what makes a caption unit */
    if (bits_left(bits) < 7)
        return refused_at(5, bits->at);
    unit->reserved = (uint8_t)take_bits(bits, 7);
    if (bits_left(bits) < 1)
        return refused_at(5, bits->at);
    unit->vbi_data_flag = (uint8_t)take_bits(bits, 1);
    if (unit->vbi_data_flag == 0)
        return read_rest(bits, unit); /* with flag 0 the content is two bytes */
    if (bits_left(bits) < 5)
        return refused_at(5, bits->at);
    unit->n = take_bits(bits, 5);
    refused = read_constructs(bits, unit->n, records);
    return refused.number != 0 ? refused : read_video_count(bits, unit);
}

captions_unit model_area_read(const uint8_t *area, size_t len, captions_record *records)
{
    captions_unit unit = {0};
    captions_record read[CAPTIONS_RECORDS] = {{0}};
    unit_span span;
    captions_refusal refused = {model_find_unit(area, len, is_caption_unit, &span), 0};

    if (refused.number == 0 && span.found) {
        bit_source bits = model_body_bits(area, span);
        refused = read_content(&bits, &unit, read);
        unit.present = true;
    }
    if (refused.number != 0)
        return (captions_unit){.refusal = refused};
    memcpy(records, read, sizeof read);
    return unit;
}

/* ---- Writing (RULES, "Order of checks") ---- */

/* The numbers of the whole value first, then each record in order: 15, 7, 8, 9. */
uint8_t model_judge_value(uint32_t reserved, uint32_t vbi_data_flag, size_t n, size_t z, const captions_record *records)
{
    if (n > CAPTIONS_RECORDS || reserved > 127 || vbi_data_flag > 1 || z > CAPTIONS_AREA_BYTES)
        return 15;
    if (vbi_data_flag == 0 && n > 0)
        return 15;
    if ((reserved == 4 && vbi_data_flag == 1) || (reserved == 5 && vbi_data_flag == 0))
        return 15; /* the byte 09 or 0A behind 03, with which the unit would be foreign (02, request 3) */
    for (size_t i = 0; i < n; i++) {
        uint8_t refused;
        if (records[i].cc_priority > 3 || records[i].field_number > 3 || records[i].line_offset > 31)
            return 15;
        refused = judge_record(records, i);
        if (refused != 0)
            return refused;
    }
    return 0;
}

/* A legal value put in the place of `span`. The room for records beyond n is not looked at. */
static captions_written put_value(const uint8_t *area, size_t len, unit_span span, unit_value *value,
                                  const captions_record *records, uint8_t *out, size_t room)
{
    static uint8_t unit[LAYOUT_UNIT_MAX];

    memcpy(value->records, records, value->n * sizeof *records);
    return model_put_unit(area, len, span, unit, layout_unit(value, unit), out, room);
}

captions_written model_unit_write(uint32_t reserved, uint32_t vbi_data_flag, size_t n, size_t z,
                                  const captions_record *records, uint8_t *out, size_t room)
{
    static const uint8_t nothing[1] = {0};
    unit_span nowhere = {false, 0, 0};
    unit_value value = {.reserved = reserved, .vbi_data_flag = vbi_data_flag, .n = n, .z = z};
    uint8_t refused = model_judge_value(reserved, vbi_data_flag, n, z, records);

    if (refused != 0)
        return model_refusal(refused, 0);
    return put_value(nothing, 0, nowhere, &value, records, out, room);
}

captions_written model_area_replace(const uint8_t *area, size_t len, uint32_t reserved, uint32_t vbi_data_flag, size_t n,
                                    size_t z, const captions_record *records, uint8_t *out, size_t room)
{
    captions_record old_records[CAPTIONS_RECORDS];
    captions_unit old = model_area_read(area, len, old_records);
    unit_value value = {.reserved = reserved, .vbi_data_flag = vbi_data_flag, .n = n, .z = z};
    unit_span span;
    uint8_t refused;

    if (old.refusal.number != 0)
        return model_refusal(old.refusal.number, old.refusal.place);
    refused = model_judge_value(reserved, vbi_data_flag, n, z, records);
    if (refused != 0)
        return model_refusal(refused, 0);
    model_find_unit(area, len, is_caption_unit, &span);
    if (!span.found)
        span.start = span.end = len; /* the new unit is put after the last byte */
    return put_value(area, len, span, &value, records, out, room);
}
