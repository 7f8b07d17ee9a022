/* pes_cases.c: see pes_cases.h. */
#include "pes_cases.h"

#include <string.h>

#include "cases.h"
#include "mutate.h"

/* ---- Legal values ---- */

/* One of some bytes. */
static uint8_t one_of(dice *d, const uint8_t *bytes, size_t count)
{
    return bytes[below(d, count)];
}

#define ONE_OF(d, ...) one_of(d, (const uint8_t[]){__VA_ARGS__}, sizeof(const uint8_t[]){__VA_ARGS__})

static captions_data_unit legal_teletext(dice *d)
{
    captions_data_unit unit = {.data_unit_id = (uint8_t)(2 + below(d, 2))};
    captions_teletext *t = &unit.of.teletext;

    t->field_parity = (uint8_t)below(d, 2);
    t->line_offset = (uint8_t)(chance(d, 15) ? 0 : 7 + below(d, 16));
    for (size_t i = 0; i < sizeof t->row; i++)
        t->row[i] = any_byte(d);
    return unit;
}

/* Most stuffing is ones, but any bytes are carried: also what would be a unit by itself. */
static captions_data_unit legal_stuffing(dice *d)
{
    captions_data_unit unit = {.data_unit_id = LAYOUT_STUFFING_ID};
    bool ones = chance(d, 40);

    for (size_t i = 0; i < sizeof unit.of.stuffing; i++)
        unit.of.stuffing[i] = ones ? 0xFF : any_byte(d);
    return unit;
}

static captions_data_unit legal_data_unit(dice *d)
{
    return chance(d, 75) ? legal_teletext(d) : legal_stuffing(d);
}

/* How many units, with 0, 1 and 31 often. */
static size_t some_n(dice *d)
{
    switch (below(d, 5)) {
    case 0:
        return below(d, 3);
    case 1:
    case 2:
        return CAPTIONS_PES_UNITS - below(d, chance(d, 60) ? 1 : 3);
    case 3:
        return below(d, CAPTIONS_PES_UNITS + 1);
    default:
        return below(d, 8);
    }
}

/* Places beyond n hold what could not be written. `full`: how many of a hundred have all 31 units, beside those by chance. */
static void legal_pes(dice *d, unsigned full, pes_value *to)
{
    to->data_identifier = (uint32_t)(16 + (chance(d, 40) ? 0 : below(d, 16)));
    to->n = chance(d, full) ? CAPTIONS_PES_UNITS : some_n(d);
    for (size_t i = 0; i < CAPTIONS_PES_UNITS; i++) {
        to->units[i] = legal_data_unit(d);
        if (i >= to->n)
            to->units[i].data_unit_id = ONE_OF(d, 0x00, 0x01, 0x04, 0xFE);
    }
}

/* ---- Faults of a data field ---- */

/* Where the first byte of a unit stands. */
static size_t unit_at(size_t k)
{
    return 1 + LAYOUT_DATA_UNIT * k;
}

/* The first, the last or any. */
static size_t some_unit(dice *d, size_t n)
{
    switch (below(d, 6)) {
    case 0:
        return 0;
    case 1:
    case 2:
        return n - 1;
    default:
        return below(d, n);
    }
}

/* At the end of the field: there something can be behind the 31st unit. */
static void add_behind(dice *d, question *q)
{
    size_t units = chance(d, 20) ? 1 + below(d, 40) : 1;

    for (size_t i = 0; i < units; i++) {
        captions_data_unit unit = legal_data_unit(d);
        layout_data_unit(&unit, q->bytes + q->len);
        q->len += LAYOUT_DATA_UNIT;
    }
    if (chance(d, 70))
        q->len -= chance(d, 50) ? LAYOUT_DATA_UNIT - 1 : below(d, LAYOUT_DATA_UNIT);
    if (chance(d, 40))
        q->bytes[q->len - 1] = (uint8_t)roll(d);
}

/* Ends at an item of any unit, in the midst of its bytes, or anywhere. */
static void cut_field(dice *d, question *q, size_t n)
{
    size_t len = unit_at(below(d, n)) + (chance(d, 80) ? 1 + below(d, 4) : below(d, LAYOUT_DATA_UNIT));

    if (chance(d, 5))
        len = below(d, q->len + 1);
    if (len < q->len)
        q->len = len;
}

/* A byte in the midst taken out, or one put in: all that follows is out of step. */
static void shift_field(dice *d, question *q)
{
    size_t at = below(d, q->len);

    if (chance(d, 50)) {
        memmove(q->bytes + at, q->bytes + at + 1, q->len - at - 1);
        q->len--;
    } else {
        memmove(q->bytes + at + 1, q->bytes + at, q->len - at);
        q->bytes[at] = any_byte(d);
        q->len++;
    }
}

static uint8_t bad_identifier(dice *d)
{
    return chance(d, 50) ? ONE_OF(d, 0x00, 0x0F, 0x20, 0x01, 0x90, 0x08, 0xF0) : any_byte(d);
}

/* Ids next to the known ones, those with their bits in reverse, and any other. */
static uint8_t bad_id(dice *d)
{
    return chance(d, 60) ? ONE_OF(d, 0x00, 0x01, 0x04, 0xFE, 0x40, 0xC0, 0xC3, 0x7F) : any_byte(d);
}

static uint8_t bad_line(dice *d)
{
    return (uint8_t)(chance(d, 50) ? ONE_OF(d, 1, 5, 6, 23, 24, 31) : below(d, 32));
}

/* One byte of the teletext that the unit has, or is given. */
static void spoil_teletext(dice *d, uint8_t *unit)
{
    captions_data_unit teletext = legal_teletext(d);

    if (unit[0] == LAYOUT_STUFFING_ID)
        layout_data_unit(&teletext, unit);
    switch (below(d, 3)) {
    case 0:
        unit[2] &= ONE_OF(d, 0x3F, 0x7F, 0xBF);
        break;
    case 1:
        unit[2] = (uint8_t)((unit[2] & 0xE0) | bad_line(d));
        break;
    default:
        unit[3] = chance(d, 60) ? ONE_OF(d, 0x27, 0xE5, 0x64, 0x1B) : any_byte(d);
        break;
    }
}

/* One byte of unit k that is no byte of a row: an id that is another kind's is among them. */
static void spoil_unit_bytes(dice *d, uint8_t *unit)
{
    switch (below(d, 10)) {
    case 0:
    case 1:
        unit[0] = bad_id(d);
        break;
    case 2:
        unit[0] = ONE_OF(d, 0x02, 0x03, 0xFF);
        break;
    case 3:
    case 4:
        unit[1] = chance(d, 60) ? ONE_OF(d, 0x00, 0x2B, 0x2D, 0x34, 0xAC, 0xFF) : any_byte(d);
        break;
    default:
        spoil_teletext(d, unit);
        break;
    }
}

static void spoil_field(dice *d, question *q, size_t k)
{
    switch (below(d, 21)) {
    case 0:
        q->bytes[0] = bad_identifier(d);
        break;
    case 1:
    case 2:
    case 3:
    case 4:
        cut_field(d, q, q->pes.n);
        break;
    case 5:
    case 6:
        add_behind(d, q);
        break;
    case 7:
        shift_field(d, q);
        break;
    case 8:
        q->bytes[below(d, q->len)] ^= (uint8_t)(1u << below(d, 8));
        break;
    default:
        spoil_unit_bytes(d, q->bytes + unit_at(k));
        break;
    }
}

static void read_case(dice *d, question *q, bool legal)
{
    size_t n, k;

    legal_pes(d, legal ? 0 : 40, &q->pes);
    q->len = layout_pes(&q->pes, q->bytes);
    if (legal)
        return;
    n = q->pes.n;
    if (n == 0) {
        q->bytes[0] = bad_identifier(d);
        q->len = chance(d, 10) ? 0 : q->len + below(d, 2);
        return;
    }
    k = some_unit(d, n);
    spoil_field(d, q, k);
    if (q->len >= unit_at(n) && chance(d, 60)) /* not cut short */
        spoil_field(d, q, chance(d, 50) ? k : some_unit(d, n));
    if (n == CAPTIONS_PES_UNITS && q->len == unit_at(n) && chance(d, 20))
        add_behind(d, q);
}

/* ---- Faults of a value ---- */

static uint8_t unholdable_line(dice *d)
{
    return chance(d, 70) ? ONE_OF(d, 1, 5, 6, 23, 31, 32, 39, 135, 255) : (uint8_t)roll(d);
}

/* A number of teletext. Where the unit was stuffing, it is given some. */
static void spoil_value_unit(dice *d, captions_data_unit *unit)
{
    if (unit->data_unit_id == LAYOUT_STUFFING_ID)
        *unit = legal_teletext(d);
    switch (below(d, 4)) {
    case 0:
        unit->data_unit_id = bad_id(d);
        break;
    case 1:
        unit->of.teletext.field_parity = (uint8_t)number_above(d, 0, 1, 8);
        break;
    default:
        unit->of.teletext.line_offset = unholdable_line(d);
        break;
    }
}

static void spoil_value(dice *d, pes_value *value, size_t k)
{
    switch (below(d, 10)) {
    case 0:
        value->data_identifier = (uint32_t)below(d, 16);
        break;
    case 1:
        value->data_identifier = (uint32_t)number_above(d, value->data_identifier, 31, 32);
        break;
    case 2:
        value->n = chance(d, 50) ? CAPTIONS_PES_UNITS + 1 : number_above(d, value->n, CAPTIONS_PES_UNITS, 64);
        break;
    case 3: /* 1 + 46 n, with 64 bits, is small again */
        if (chance(d, 40))
            value->n = SIZE_MAX / LAYOUT_DATA_UNIT + below(d, 3);
        break;
    default:
        if (value->n > 0)
            spoil_value_unit(d, &value->units[k]);
        break;
    }
}

static void write_case(dice *d, question *q, bool legal)
{
    size_t len, k;

    legal_pes(d, legal ? 0 : 20, &q->pes);
    len = 1 + LAYOUT_DATA_UNIT * q->pes.n;
    q->room = legal ? enough_room(d, len, OUTPUT_MAX) : any_room(d, len, OUTPUT_MAX);
    if (legal || chance(d, 15))
        return;
    k = q->pes.n > 0 ? some_unit(d, q->pes.n) : 0;
    spoil_value(d, &q->pes, k);
    if (chance(d, 50))
        spoil_value(d, &q->pes, chance(d, 40) || q->pes.n == 0 || q->pes.n > CAPTIONS_PES_UNITS ? k : some_unit(d, q->pes.n));
}

/* ---- Packets ---- */

static size_t full_slots(const packet_value *value)
{
    size_t full = 0;

    for (size_t i = 0; i < CAPTIONS_SLOTS; i++)
        full += value->slots[i].full;
    return full;
}

/* Line 6 is legal in a packet. Where it is there by chance, another takes its place. */
static void without_line_6(packet_value *value)
{
    for (size_t i = 0; i < CAPTIONS_SLOTS; i++)
        if (value->slots[i].line == 6)
            value->slots[i].line = 7;
}

static void with_line_6(dice *d, packet_value *value)
{
    for (size_t i = 0; i < CAPTIONS_SLOTS; i++)
        if (value->slots[i].full == 1 && chance(d, 40))
            value->slots[i].line = 6;
}

/* A legal packet, of which some cannot be converted. Its counter and its reserved bits may be any. */
static void packet_to_convert(dice *d, question *q, bool legal)
{
    size_t len;

    legal_packet(d, &q->packet);
    without_line_6(&q->packet);
    if (!legal && chance(d, 50))
        with_line_6(d, &q->packet);
    if (!legal && chance(d, 5)) {
        memset(q->packet.slots, 0, sizeof q->packet.slots);
        memset(q->packet.rows, 0, sizeof q->packet.rows);
    }
    len = 1 + LAYOUT_DATA_UNIT * full_slots(&q->packet);
    q->room = legal ? enough_room(d, len, OUTPUT_MAX) : any_room(d, len, OUTPUT_MAX);
}

static void convert_case(dice *d, question *q, bool legal)
{
    packet_to_convert(d, q, legal);
    q->len = layout_packet(&q->packet, q->words);
    if (legal || chance(d, 30))
        return;
    mutate_packet(d, q);
    if (chance(d, 30))
        mutate_packet(d, q);
}

static void convert_value_case(dice *d, question *q, bool legal)
{
    packet_to_convert(d, q, legal);
    if (legal || chance(d, 30))
        return;
    spoil_packet(d, &q->packet);
    if (chance(d, 30))
        spoil_packet(d, &q->packet);
}

void pes_case(dice *d, question *q, bool legal)
{
    if (q->op == PES_READ)
        read_case(d, q, legal);
    else if (q->op == PES_WRITE)
        write_case(d, q, legal);
    else if (q->op == PES_CONVERT)
        convert_case(d, q, legal);
    else
        convert_value_case(d, q, legal);
}
