/* plain_pes.c: the PES data field; see plain.h. Sections named in comments are those of docs/RULES.md. */
#include "plain_packet.h"
#include "plain_reversed.h"

#include <string.h>

enum {
    UNIT_BYTES = 46,
    DATA = 2, /* the byte of a unit behind data_unit_id and data_unit_length */
    FRAMING = 3,
    ROW = 4,
    DATA_BYTES = UNIT_BYTES - DATA,
    DATA_UNIT_LENGTH = 0x2C,
    FRAMING_CODE = 0xE4,
    RESERVED_ONES = 0xC0,
    IDENTIFIER = 0x10, /* of a conversion; the least that is legal */
    LAST_IDENTIFIER = 0x1F,
    STUFFING = 0xFF
};

/* Legal are line 0, and lines 7 to 22 ("PES data field"). */
static bool line_holds(uint8_t line)
{
    return line == 0 || (line >= 7 && line <= 22);
}

/* ---- Reading ---- */

/* What reading says: 0 twice, or a number and the byte. */
static captions_refusal at_byte(uint8_t number, size_t byte)
{
    return (captions_refusal){number, byte};
}

/* The unit at byte `at`, of which the first of `left` bytes is there ("Order of checks"). */
static captions_refusal judge_unit(const uint8_t *unit, size_t left, size_t at)
{
    if (unit[0] != 0x02 && unit[0] != 0x03 && unit[0] != STUFFING) {
        return at_byte(CAPTIONS_UNKNOWN_UNIT, at);
    }
    if (left < DATA) {
        return at_byte(CAPTIONS_ENDS, at + 1);
    }
    if (unit[1] != DATA_UNIT_LENGTH) {
        return at_byte(CAPTIONS_LENGTH, at + 1);
    }
    if (unit[0] == STUFFING) {
        return left < UNIT_BYTES ? at_byte(CAPTIONS_ENDS, at + DATA) : at_byte(CAPTIONS_ACCEPTED, 0);
    }
    if (left < FRAMING) {
        return at_byte(CAPTIONS_ENDS, at + DATA);
    }
    if (unit[DATA] < RESERVED_ONES) {
        return at_byte(CAPTIONS_FIXED, at + DATA);
    }
    if (!line_holds(unit[DATA] & 31)) {
        return at_byte(CAPTIONS_FIELD_OR_LINE, at + DATA);
    }
    if (left < ROW) {
        return at_byte(CAPTIONS_ENDS, at + FRAMING);
    }
    if (unit[FRAMING] != FRAMING_CODE) {
        return at_byte(CAPTIONS_FIXED, at + FRAMING);
    }
    return left < UNIT_BYTES ? at_byte(CAPTIONS_ENDS, at + ROW) : at_byte(CAPTIONS_ACCEPTED, 0);
}

static captions_refusal judge_field(const uint8_t *field, size_t len)
{
    if (len == 0) {
        return at_byte(CAPTIONS_ENDS, 0);
    }
    if (field[0] < IDENTIFIER || field[0] > LAST_IDENTIFIER) {
        return at_byte(CAPTIONS_FIXED, 0);
    }
    for (size_t at = 1; at < len; at += UNIT_BYTES) {
        if (at == CAPTIONS_PES_BYTES) {
            return at_byte(CAPTIONS_SURPLUS_UNIT, at);
        }
        captions_refusal refusal = judge_unit(field + at, len - at, at);
        if (refusal.number != CAPTIONS_ACCEPTED) {
            return refusal;
        }
    }
    return at_byte(CAPTIONS_ACCEPTED, 0);
}

static void reverse_row(const uint8_t *restrict from, uint8_t *restrict to)
{
    for (size_t i = 0; i < CAPTIONS_ROW_BYTES; i++) {
        to[i] = reversed[from[i]];
    }
}

captions_pes plain_pes_read(const uint8_t *field, size_t len, captions_data_unit units[static CAPTIONS_PES_UNITS])
{
    captions_refusal refusal = judge_field(field, len);
    if (refusal.number != CAPTIONS_ACCEPTED) {
        return (captions_pes){.refusal = refusal};
    }
    captions_pes head = {.data_identifier = field[0], .n = (len - 1) / UNIT_BYTES};
    for (size_t i = 0; i < head.n; i++) {
        const uint8_t *unit = field + 1 + UNIT_BYTES * i;
        units[i].data_unit_id = unit[0];
        if (unit[0] == STUFFING) {
            memcpy(units[i].of.stuffing, unit + DATA, DATA_BYTES);
            continue;
        }
        units[i].of.teletext.field_parity = unit[DATA] >> 5 & 1;
        units[i].of.teletext.line_offset = unit[DATA] & 31;
        reverse_row(unit + ROW, units[i].of.teletext.row);
    }
    memset(units + head.n, 0, (CAPTIONS_PES_UNITS - head.n) * sizeof units[0]);
    return head;
}

/* ---- Writing ---- */

static captions_written refused(uint8_t number)
{
    return (captions_written){.refusal = {number, 0}};
}

static void put_teletext(uint8_t id, uint8_t field_parity, uint8_t line, const uint8_t *restrict row, uint8_t *restrict out)
{
    out[0] = id;
    out[1] = DATA_UNIT_LENGTH;
    out[DATA] = (uint8_t)(RESERVED_ONES | field_parity << 5 | line);
    out[FRAMING] = FRAMING_CODE;
    reverse_row(row, out + ROW);
}

/* 15, then 7. Stuffing can be any bytes. */
static uint8_t judge_value(const captions_data_unit *unit)
{
    if (unit->data_unit_id == STUFFING) {
        return CAPTIONS_ACCEPTED;
    }
    if (unit->data_unit_id != 0x02 && unit->data_unit_id != 0x03) {
        return CAPTIONS_UNHOLDABLE;
    }
    if (unit->of.teletext.field_parity > 1 || unit->of.teletext.line_offset > 31) {
        return CAPTIONS_UNHOLDABLE;
    }
    return line_holds(unit->of.teletext.line_offset) ? CAPTIONS_ACCEPTED : CAPTIONS_FIELD_OR_LINE;
}

captions_written plain_pes_write(uint32_t data_identifier, size_t n,
                                 const captions_data_unit units[static CAPTIONS_PES_UNITS],
                                 uint8_t *out, size_t room)
{
    if (data_identifier < IDENTIFIER || data_identifier > LAST_IDENTIFIER || n > CAPTIONS_PES_UNITS) {
        return refused(CAPTIONS_UNHOLDABLE);
    }
    /* Every unit is judged before the first byte is stored. */
    for (size_t i = 0; i < n; i++) {
        uint8_t number = judge_value(&units[i]);
        if (number != CAPTIONS_ACCEPTED) {
            return refused(number);
        }
    }
    size_t len = 1 + UNIT_BYTES * n;
    if (len > room) {
        return refused(CAPTIONS_NO_ROOM);
    }
    *out++ = (uint8_t)data_identifier;
    for (size_t i = 0; i < n; i++, out += UNIT_BYTES) {
        const captions_teletext *teletext = &units[i].of.teletext;
        if (units[i].data_unit_id == STUFFING) {
            out[0] = STUFFING;
            out[1] = DATA_UNIT_LENGTH;
            memcpy(out + DATA, units[i].of.stuffing, DATA_BYTES);
        } else {
            put_teletext(units[i].data_unit_id, teletext->field_parity, teletext->line_offset, teletext->row, out);
        }
    }
    return (captions_written){.len = len};
}

/* ---- Teletext from a packet ---- */

/* A legal packet's slots: 7 for line 6, which only a packet may have, and then 14. */
static captions_written convert_slots(const captions_slot slots[static CAPTIONS_SLOTS],
                                      const captions_row rows[static CAPTIONS_SLOTS], uint8_t *out, size_t room)
{
    size_t len = 1;
    for (size_t i = 0; i < CAPTIONS_SLOTS; i++) {
        if (!line_holds(slots[i].line)) {
            return refused(CAPTIONS_FIELD_OR_LINE);
        }
        len += slots[i].full ? UNIT_BYTES : 0;
    }
    if (len > room) {
        return refused(CAPTIONS_NO_ROOM);
    }
    *out++ = IDENTIFIER;
    for (size_t i = 0; i < CAPTIONS_SLOTS; i++) {
        if (slots[i].full) {
            put_teletext(0x03, slots[i].field, slots[i].line, rows[i].bytes, out);
            out += UNIT_BYTES;
        }
    }
    return (captions_written){.len = len};
}

captions_written plain_pes_convert(const uint16_t *words, size_t len, uint8_t *out, size_t room)
{
    captions_row rows[CAPTIONS_SLOTS];
    captions_packet packet = plain_packet_read(words, len, rows);
    if (packet.refusal.number != CAPTIONS_ACCEPTED) {
        return (captions_written){.refusal = packet.refusal};
    }
    return convert_slots(packet.slots, rows, out, room);
}

captions_written plain_pes_convert_value(uint32_t counter, const captions_slot slots[static CAPTIONS_SLOTS],
                                         const captions_row rows[static CAPTIONS_SLOTS],
                                         uint8_t *out, size_t room)
{
    uint8_t number = plain_judge_packet(counter, slots, rows);
    return number != CAPTIONS_ACCEPTED ? refused(number) : convert_slots(slots, rows, out, room);
}
