/* wrong_calls.c: stand-ins for the calls of data fields. See wrong_calls.h. */
#include "wrong_calls.h"

#include <string.h>

static uint8_t copy[INPUT_MAX];

/* ---- Reading: a field that is mended first, or an answer that is changed ---- */

static bool is_teletext(uint8_t id)
{
    return id == 0x02 || id == 0x03;
}

/* Of each unit of teletext that stands where a unit should, byte `at` gets the bits `or_with`, and of its own keeps `keep`. */
static captions_pes read_mended(const uint8_t *field, size_t len, captions_data_unit *units, size_t at, uint8_t keep,
                                uint8_t or_with)
{
    memcpy(copy, field, len);
    for (size_t unit = 1; unit + at < len; unit += LAYOUT_DATA_UNIT)
        if (is_teletext(copy[unit]))
            copy[unit + at] = (uint8_t)((copy[unit + at] & keep) | or_with);
    return captions_pes_read(copy, len, units);
}

static captions_pes framing_passed(const uint8_t *field, size_t len, captions_data_unit *units)
{
    return read_mended(field, len, units, 3, 0x00, 0xE4);
}

static captions_pes reserved_passed(const uint8_t *field, size_t len, captions_data_unit *units)
{
    return read_mended(field, len, units, 2, 0xFF, 0xC0);
}

static captions_pes reserved_bit_passed(const uint8_t *field, size_t len, captions_data_unit *units)
{
    return read_mended(field, len, units, 2, 0xFF, 0x40);
}

static captions_pes surplus_passed(const uint8_t *field, size_t len, captions_data_unit *units)
{
    return captions_pes_read(field, len > CAPTIONS_PES_BYTES ? CAPTIONS_PES_BYTES : len, units);
}

/* 24 before what is wrong in the 31 units. */
static captions_pes surplus_first(const uint8_t *field, size_t len, captions_data_unit *units)
{
    captions_pes head = captions_pes_read(field, len, units);

    if (len > CAPTIONS_PES_BYTES && head.refusal.place > 0)
        head.refusal = (captions_refusal){CAPTIONS_SURPLUS_UNIT, CAPTIONS_PES_BYTES};
    return head;
}

/* The framing code before the line. */
static captions_pes framing_first(const uint8_t *field, size_t len, captions_data_unit *units)
{
    captions_pes head = captions_pes_read(field, len, units);
    size_t framing = head.refusal.place + 1;

    if (head.refusal.number == CAPTIONS_FIELD_OR_LINE && framing < len && field[framing] != 0xE4)
        head.refusal = (captions_refusal){CAPTIONS_FIXED, framing};
    return head;
}

static captions_pes place_behind(const uint8_t *field, size_t len, captions_data_unit *units)
{
    captions_pes head = captions_pes_read(field, len, units);

    head.refusal.place += head.refusal.place > 0;
    return head;
}

static captions_pes place_dropped(const uint8_t *field, size_t len, captions_data_unit *units)
{
    captions_pes head = captions_pes_read(field, len, units);

    head.refusal.place = 0;
    return head;
}

/* The byte behind the last one, where an item is not all there. */
static captions_pes place_at_end(const uint8_t *field, size_t len, captions_data_unit *units)
{
    captions_pes head = captions_pes_read(field, len, units);

    if (head.refusal.number == CAPTIONS_ENDS)
        head.refusal.place = len;
    return head;
}

static captions_pes units_touched(const uint8_t *field, size_t len, captions_data_unit *units)
{
    captions_pes head = captions_pes_read(field, len, units);

    if (head.refusal.number != CAPTIONS_ACCEPTED)
        units[CAPTIONS_PES_UNITS - 1].of.stuffing[43] ^= 1;
    return head;
}

/* Behind the n units stays what was there. */
static captions_pes units_left(const uint8_t *field, size_t len, captions_data_unit *units)
{
    captions_data_unit before[CAPTIONS_PES_UNITS];
    captions_pes head;

    memcpy(before, units, sizeof before);
    head = captions_pes_read(field, len, units);
    memcpy(units + head.n, before + head.n, (CAPTIONS_PES_UNITS - head.n) * sizeof *units);
    return head;
}

/* ---- The bytes of a row, and of stuffing ---- */

static void turn(uint8_t *bytes, size_t count)
{
    for (size_t i = 0; i < count; i++)
        bytes[i] = layout_reversed(bytes[i]);
}

/* Turns the rows of the first n units, or their stuffing. */
static void turn_units(captions_data_unit *units, size_t n, bool stuffing)
{
    for (size_t i = 0; i < n && i < CAPTIONS_PES_UNITS; i++) {
        if (units[i].data_unit_id == LAYOUT_STUFFING_ID && stuffing)
            turn(units[i].of.stuffing, sizeof units[i].of.stuffing);
        if (units[i].data_unit_id != LAYOUT_STUFFING_ID && !stuffing)
            turn(units[i].of.teletext.row, sizeof units[i].of.teletext.row);
    }
}

static captions_pes rows_as_in_stream(const uint8_t *field, size_t len, captions_data_unit *units)
{
    captions_pes head = captions_pes_read(field, len, units);

    turn_units(units, head.n, false);
    return head;
}

static captions_pes stuffing_turned(const uint8_t *field, size_t len, captions_data_unit *units)
{
    captions_pes head = captions_pes_read(field, len, units);

    turn_units(units, head.n, true);
    return head;
}

static captions_pes parity_turned(const uint8_t *field, size_t len, captions_data_unit *units)
{
    captions_pes head = captions_pes_read(field, len, units);

    for (size_t i = 0; i < head.n; i++)
        if (units[i].data_unit_id != LAYOUT_STUFFING_ID)
            units[i].of.teletext.field_parity ^= 1;
    return head;
}

static captions_written write_turned(uint32_t data_identifier, size_t n, const captions_data_unit *units, uint8_t *out,
                                     size_t room, bool stuffing)
{
    captions_data_unit turned[CAPTIONS_PES_UNITS];

    memcpy(turned, units, sizeof turned);
    turn_units(turned, n, stuffing);
    return captions_pes_write(data_identifier, n, turned, out, room);
}

static captions_written rows_written_as_they_are(uint32_t data_identifier, size_t n, const captions_data_unit *units,
                                                 uint8_t *out, size_t room)
{
    return write_turned(data_identifier, n, units, out, room, false);
}

static captions_written stuffing_written_turned(uint32_t data_identifier, size_t n, const captions_data_unit *units,
                                                uint8_t *out, size_t room)
{
    return write_turned(data_identifier, n, units, out, room, true);
}

/* ---- Writing ---- */

static captions_written identifier_narrowed(uint32_t data_identifier, size_t n, const captions_data_unit *units, uint8_t *out,
                                            size_t room)
{
    return captions_pes_write((uint8_t)data_identifier, n, units, out, room);
}

static captions_written n_narrowed(uint32_t data_identifier, size_t n, const captions_data_unit *units, uint8_t *out, size_t room)
{
    return captions_pes_write(data_identifier, (uint8_t)n, units, out, room);
}

/* A refusal that stored its first byte. */
static captions_written touched(captions_written made, uint8_t *out, size_t room)
{
    if (made.refusal.number != CAPTIONS_ACCEPTED && room > 0)
        out[0] ^= 1;
    return made;
}

static captions_written output_touched(uint32_t data_identifier, size_t n, const captions_data_unit *units, uint8_t *out,
                                       size_t room)
{
    return touched(captions_pes_write(data_identifier, n, units, out, room), out, room);
}

/* Line 6 as line 7, and in the output line 6 again. */
static captions_written line_6_written(uint32_t data_identifier, size_t n, const captions_data_unit *units, uint8_t *out,
                                       size_t room)
{
    captions_data_unit lifted[CAPTIONS_PES_UNITS];
    captions_written made;

    memcpy(lifted, units, sizeof lifted);
    for (size_t i = 0; i < n && i < CAPTIONS_PES_UNITS; i++)
        if (is_teletext(units[i].data_unit_id) && units[i].of.teletext.line_offset == 6)
            lifted[i].of.teletext.line_offset = 7;
    made = captions_pes_write(data_identifier, n, lifted, out, room);
    for (size_t i = 0; made.len > 0 && i < n; i++)
        if (is_teletext(units[i].data_unit_id) && units[i].of.teletext.line_offset == 6)
            out[1 + LAYOUT_DATA_UNIT * i + 2] ^= 6 ^ 7;
    return made;
}

/* ---- Converting: each from a value, and so from the words of a packet ---- */

static captions_written from_words(value_call call, const uint16_t *words, size_t len, uint8_t *out, size_t room)
{
    captions_row rows[CAPTIONS_SLOTS];
    captions_packet packet = captions_packet_read(words, len, rows);

    if (packet.refusal.number != CAPTIONS_ACCEPTED)
        return (captions_written){.refusal = packet.refusal};
    return call(packet.counter, packet.slots, rows, out, room);
}

/* An empty slot is taken for one of line 0. */
static captions_written empty_converted(uint32_t counter, const captions_slot *slots, const captions_row *rows, uint8_t *out,
                                        size_t room)
{
    captions_slot full[CAPTIONS_SLOTS];

    memcpy(full, slots, sizeof full);
    for (size_t i = 0; i < CAPTIONS_SLOTS; i++)
        if (slots[i].full == 0 && slots[i].line == 0)
            full[i] = (captions_slot){1, 0, 1, 0};
    return captions_pes_convert_value(counter, full, rows, out, room);
}

static captions_written empty_converted_words(const uint16_t *words, size_t len, uint8_t *out, size_t room)
{
    return from_words(empty_converted, words, len, out, room);
}

/* Each unit of what was converted has its byte `at` changed. */
static captions_written changed(captions_written made, uint8_t *out, size_t at, uint8_t by)
{
    for (size_t unit = 1; unit < made.len; unit += LAYOUT_DATA_UNIT)
        out[unit + at] ^= by;
    return made;
}

static captions_written field_turned(uint32_t counter, const captions_slot *slots, const captions_row *rows, uint8_t *out,
                                     size_t room)
{
    return changed(captions_pes_convert_value(counter, slots, rows, out, room), out, 2, 0x20);
}

static captions_written field_turned_words(const uint16_t *words, size_t len, uint8_t *out, size_t room)
{
    return changed(captions_pes_convert(words, len, out, room), out, 2, 0x20);
}

static captions_written other_id(uint32_t counter, const captions_slot *slots, const captions_row *rows, uint8_t *out, size_t room)
{
    return changed(captions_pes_convert_value(counter, slots, rows, out, room), out, 0, 0x02 ^ 0x03);
}

static captions_written other_id_words(const uint16_t *words, size_t len, uint8_t *out, size_t room)
{
    return changed(captions_pes_convert(words, len, out, room), out, 0, 0x02 ^ 0x03);
}

/* Line 6 as line 7, and in the output line 6 again. */
static captions_written line_6_converted(uint32_t counter, const captions_slot *slots, const captions_row *rows, uint8_t *out,
                                         size_t room)
{
    captions_slot lifted[CAPTIONS_SLOTS];
    captions_written made;
    size_t unit = 1;

    memcpy(lifted, slots, sizeof lifted);
    for (size_t i = 0; i < CAPTIONS_SLOTS; i++)
        lifted[i].line = slots[i].line == 6 ? 7 : slots[i].line;
    made = captions_pes_convert_value(counter, lifted, rows, out, room);
    for (size_t i = 0; made.len > 0 && i < CAPTIONS_SLOTS; i++) {
        if (slots[i].full == 1 && slots[i].line == 6)
            out[unit + 2] ^= 6 ^ 7;
        unit += slots[i].full * (size_t)LAYOUT_DATA_UNIT;
    }
    return made;
}

static captions_written line_6_converted_words(const uint16_t *words, size_t len, uint8_t *out, size_t room)
{
    return from_words(line_6_converted, words, len, out, room);
}

/* Line 6 is told before what is wrong in a later slot. */
static captions_written line_6_first(uint32_t counter, const captions_slot *slots, const captions_row *rows, uint8_t *out,
                                     size_t room)
{
    for (size_t i = 0; i < CAPTIONS_SLOTS; i++)
        if (slots[i].full == 1 && slots[i].line == 6)
            return (captions_written){.refusal = {CAPTIONS_FIELD_OR_LINE, 0}};
    return captions_pes_convert_value(counter, slots, rows, out, room);
}

static captions_written value_touched(uint32_t counter, const captions_slot *slots, const captions_row *rows, uint8_t *out,
                                      size_t room)
{
    return touched(captions_pes_convert_value(counter, slots, rows, out, room), out, room);
}

static captions_written words_touched(const uint16_t *words, size_t len, uint8_t *out, size_t room)
{
    return touched(captions_pes_convert(words, len, out, room), out, room);
}

static captions_written word_dropped(const uint16_t *words, size_t len, uint8_t *out, size_t room)
{
    captions_written made = captions_pes_convert(words, len, out, room);

    made.refusal.place = 0;
    return made;
}

/* ---- All ---- */

#define READ(which, call) {.what = which, .op = PES_READ, .read = call}
#define WRITE(which, call) {.what = which, .op = PES_WRITE, .write = call}
#define CONVERT(which, call) {.what = which, .op = PES_CONVERT, .convert = call}
#define CONVERT_VALUE(which, call) {.what = which, .op = PES_CONVERT_VALUE, .convert_value = call}

stand_in pes_stand_ins[PES_STAND_INS] = {
    READ("a row as it is in the stream", rows_as_in_stream),
    READ("stuffing turned round", stuffing_turned),
    READ("field_parity turned", parity_turned),
    READ("a framing code let through", framing_passed),
    READ("reserved bits let through", reserved_passed),
    READ("one reserved bit let through", reserved_bit_passed),
    READ("a 32nd unit let through", surplus_passed),
    READ("24 before a wrong unit", surplus_first),
    READ("the framing code before the line", framing_first),
    READ("the place off by one", place_behind),
    READ("no place", place_dropped),
    READ("the place where the bytes end", place_at_end),
    READ("lent units touched in a refusal", units_touched),
    READ("lent units beyond n left", units_left),
    WRITE("a row as it is", rows_written_as_they_are),
    WRITE("stuffing turned round", stuffing_written_turned),
    WRITE("data_identifier narrowed", identifier_narrowed),
    WRITE("n narrowed", n_narrowed),
    WRITE("line 6 let through", line_6_written),
    WRITE("output touched in a refusal", output_touched),
    CONVERT("an empty slot converted", empty_converted_words),
    CONVERT("the field turned", field_turned_words),
    CONVERT("id 02", other_id_words),
    CONVERT("line 6 let through", line_6_converted_words),
    CONVERT("output touched in a refusal", words_touched),
    CONVERT("the packet's place dropped", word_dropped),
    CONVERT_VALUE("an empty slot converted", empty_converted),
    CONVERT_VALUE("the field turned", field_turned),
    CONVERT_VALUE("id 02", other_id),
    CONVERT_VALUE("line 6 let through", line_6_converted),
    CONVERT_VALUE("line 6 before a later slot", line_6_first),
    CONVERT_VALUE("output touched in a refusal", value_touched),
};
