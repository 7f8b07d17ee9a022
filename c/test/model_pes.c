/* model_pes.c: the PES data field by document 02, request 7, and EN 300 472; and teletext from a packet into one. */
#include "model.h"

#include <string.h>

#include "layout.h"

enum { PES_IDENTIFIER = 0x10, CONVERTED_MAX = 1 + LAYOUT_DATA_UNIT * CAPTIONS_SLOTS };

/* Lines that EN 300 472 has: 0, which is no known one, and 7 to 22. The others are reserved. */
static bool line_is_legal(unsigned line)
{
    return line == 0 || (line >= 7 && line <= 22);
}

/* ---- Reading: one item after the other, from left to right ---- */

typedef struct item_source {
    const uint8_t *bytes;
    size_t len;
    size_t at; /* where the next item begins */
    captions_refusal refused;
} item_source;

static bool refuse(item_source *s, uint8_t number, size_t place)
{
    s->refused = (captions_refusal){number, place};
    return false;
}

/* Takes an item of `count` bytes; 5 where it is not all there. */
static bool take_item(item_source *s, size_t count, const uint8_t **item)
{
    if (s->len - s->at < count)
        return refuse(s, 5, s->at);
    *item = s->bytes + s->at;
    s->at += count;
    return true;
}

/* Takes an item of one byte that can have one value only; `number` where it has another. */
static bool take_fixed(item_source *s, uint8_t right, uint8_t number)
{
    const uint8_t *item;
    size_t began = s->at;

    if (!take_item(s, 1, &item))
        return false;
    return *item == right || refuse(s, number, began);
}

/* Two reserved bits, field_parity and line_offset are one byte, most significant bit first. */
static bool take_line(item_source *s, captions_teletext *to)
{
    const uint8_t *item;
    size_t began = s->at;

    if (!take_item(s, 1, &item))
        return false;
    if (*item < 0xC0)
        return refuse(s, 6, began);
    to->field_parity = *item >= 0xE0;
    to->line_offset = *item % 32;
    return line_is_legal(to->line_offset) || refuse(s, 7, began);
}

static bool take_teletext(item_source *s, captions_teletext *to)
{
    const uint8_t *item;

    if (!take_line(s, to) || !take_fixed(s, 0xE4, 6) || !take_item(s, sizeof to->row, &item))
        return false;
    for (size_t i = 0; i < sizeof to->row; i++)
        to->row[i] = layout_reversed(item[i]);
    return true;
}

static bool take_stuffing(item_source *s, uint8_t *to, size_t count)
{
    const uint8_t *item;

    if (!take_item(s, count, &item))
        return false;
    memcpy(to, item, count);
    return true;
}

static bool take_unit(item_source *s, captions_data_unit *to)
{
    const uint8_t *id;
    size_t began = s->at;

    if (!take_item(s, 1, &id))
        return false;
    to->data_unit_id = *id;
    switch (*id) {
    case 0x02:
    case 0x03:
        return take_fixed(s, 0x2C, 13) && take_teletext(s, &to->of.teletext);
    case 0xFF:
        return take_fixed(s, 0x2C, 13) && take_stuffing(s, to->of.stuffing, sizeof to->of.stuffing);
    default:
        return refuse(s, 23, began);
    }
}

static bool take_field(item_source *s, pes_value *to)
{
    const uint8_t *item;

    if (!take_item(s, 1, &item))
        return false;
    if (*item < 0x10 || *item > 0x1F)
        return refuse(s, 6, 0);
    to->data_identifier = *item;
    while (s->at < s->len) {
        if (to->n == CAPTIONS_PES_UNITS)
            return refuse(s, 24, s->at);
        if (!take_unit(s, &to->units[to->n]))
            return false;
        to->n++;
    }
    return true;
}

captions_pes model_pes_read(const uint8_t *field, size_t len, captions_data_unit *units)
{
    item_source source = {.bytes = field, .len = len};
    pes_value value;

    memset(&value, 0, sizeof value);
    if (!take_field(&source, &value))
        return (captions_pes){.refusal = source.refused};
    memcpy(units, value.units, sizeof value.units);
    return (captions_pes){.data_identifier = (uint8_t)value.data_identifier, .n = value.n};
}

/* ---- Writing ---- */

/* A writer's refusal has no place. */
static captions_written refused(uint8_t number)
{
    return (captions_written){.refusal = {number, 0}};
}

static uint8_t judge_unit(const captions_data_unit *unit)
{
    if (unit->data_unit_id == LAYOUT_STUFFING_ID)
        return 0; /* its bytes may be any */
    if (unit->data_unit_id != 2 && unit->data_unit_id != 3)
        return 15;
    if (unit->of.teletext.field_parity > 1)
        return 15;
    if (unit->of.teletext.line_offset > 31)
        return 15;
    return line_is_legal(unit->of.teletext.line_offset) ? 0 : 7;
}

captions_written model_pes_write(uint32_t data_identifier, size_t n, const captions_data_unit *units, uint8_t *out, size_t room)
{
    pes_value value = {.data_identifier = data_identifier, .n = n};

    if (data_identifier < 16 || data_identifier > 31)
        return refused(15);
    if (n > CAPTIONS_PES_UNITS)
        return refused(15);
    for (size_t i = 0; i < n; i++) {
        uint8_t number = judge_unit(&units[i]);
        if (number != 0)
            return refused(number);
        value.units[i] = units[i];
    }
    if (room < 1 + LAYOUT_DATA_UNIT * n)
        return refused(14);
    return (captions_written){.len = layout_pes(&value, out)};
}

/* ---- Teletext from a packet ---- */

/* The packet is legal. A line that only a packet may have is looked for first, from the lowest slot on. */
static captions_written write_slots(const captions_slot *slots, const captions_row *rows, uint8_t *out, size_t room)
{
    pes_value value = {.data_identifier = PES_IDENTIFIER};
    uint8_t made[CONVERTED_MAX];
    size_t len;

    for (size_t i = 0; i < CAPTIONS_SLOTS; i++) {
        captions_data_unit *unit = &value.units[value.n];
        if (slots[i].full == 0)
            continue;
        if (!line_is_legal(slots[i].line))
            return refused(7);
        unit->data_unit_id = LAYOUT_TELETEXT_ID;
        unit->of.teletext.field_parity = slots[i].field; /* odd, which is 1, is the first field */
        unit->of.teletext.line_offset = slots[i].line;
        memcpy(unit->of.teletext.row, rows[i].bytes, CAPTIONS_ROW_BYTES);
        value.n++;
    }
    len = layout_pes(&value, made);
    if (room < len)
        return refused(14);
    memcpy(out, made, len);
    return (captions_written){.len = len};
}

captions_written model_pes_convert(const uint16_t *words, size_t len, uint8_t *out, size_t room)
{
    captions_row rows[CAPTIONS_SLOTS];
    captions_packet packet = model_packet_read(words, len, rows);

    if (packet.refusal.number != 0)
        return (captions_written){.refusal = packet.refusal};
    return write_slots(packet.slots, rows, out, room);
}

/* What cannot be written as a packet cannot be converted. That packet is put nowhere, so that its room is enough. */
captions_written model_pes_convert_value(uint32_t counter, const captions_slot *slots, const captions_row *rows, uint8_t *out,
                                         size_t room)
{
    uint16_t words[CAPTIONS_PACKET_WORDS];
    captions_written packet = model_packet_write(counter, slots, rows, words, CAPTIONS_PACKET_WORDS);

    if (packet.refusal.number != 0)
        return packet;
    return write_slots(slots, rows, out, room);
}
