/* pes_trips.c: see pes_trips.h. */
#include "pes_trips.h"

#include <string.h>

static question back;
static outcome expected, answer;

static void begin(operation op, const question *q)
{
    back.op = op;
    back.fill = (uint16_t)(q->fill + 0x8080);
    back.at = q->at == AT_END ? AT_FRONT : AT_END;
    back.nulls = !q->nulls;
}

static const char *compare(unsigned long *made)
{
    ++*made;
    ask(&library_calls, &back, SPOIL_NOTHING, &answer);
    return difference(&back, &expected, &answer);
}

/* ---- There and back ---- */

const char *pes_read_trip(const question *q, const outcome *got, unsigned long *made)
{
    begin(PES_WRITE, q);
    back.pes.data_identifier = (uint32_t)got->numbers[2];
    back.pes.n = got->numbers[3];
    memcpy(back.pes.units, got->memory, sizeof back.pes.units);
    back.room = q->len;
    outcome_begin(&back, &expected);
    expected.numbers[2] = q->len;
    memcpy(expected.memory, q->bytes, q->len);
    return compare(made);
}

/* Reads a data field that was written. It must have this value, and zeros beyond n. */
static const char *is_read(const question *q, const outcome *written, const pes_value *value, unsigned long *made)
{
    begin(PES_READ, q);
    back.len = written->numbers[2];
    memcpy(back.bytes, written->memory, back.len);
    outcome_begin(&back, &expected);
    expected.numbers[2] = value->data_identifier;
    expected.numbers[3] = value->n;
    memset(expected.memory, 0, expected.size);
    memcpy(expected.memory, value->units, value->n * sizeof *value->units);
    return compare(made);
}

const char *pes_write_trip(const question *q, const outcome *got, unsigned long *made)
{
    return is_read(q, got, &q->pes, made);
}

/* ---- Conversion ---- */

/* What a data field of these slots holds, made without the library. */
static void value_of_slots(const captions_slot *slots, const captions_row *rows, pes_value *to)
{
    to->data_identifier = 0x10;
    to->n = 0;
    for (size_t i = 0; i < CAPTIONS_SLOTS; i++) {
        captions_data_unit *unit = &to->units[to->n];
        if (slots[i].full == 0)
            continue;
        unit->data_unit_id = LAYOUT_TELETEXT_ID;
        unit->of.teletext.field_parity = slots[i].field;
        unit->of.teletext.line_offset = slots[i].line;
        memcpy(unit->of.teletext.row, rows[i].bytes, CAPTIONS_ROW_BYTES);
        to->n++;
    }
}

/* The other conversion, of what `back` has by now, answers as this one did. */
static const char *other_way(operation op, const question *q, const outcome *got, unsigned long *made)
{
    begin(op, q);
    back.room = q->room;
    outcome_begin(&back, &expected);
    memcpy(expected.numbers, got->numbers, 3 * sizeof *got->numbers);
    memcpy(expected.memory, got->memory, got->numbers[2]);
    return compare(made);
}

static const char *as_the_packet(const outcome *packet, const outcome *got)
{
    if (packet->numbers[0] != got->numbers[0] || packet->numbers[1] != got->numbers[1])
        return "a packet that is refused, and the conversion is not refused in the same way";
    return NULL;
}

static const char *holds_slots(const question *q, const outcome *got, unsigned long *made)
{
    static pes_value value;

    if (got->numbers[0] != 0)
        return NULL;
    value_of_slots(back.packet.slots, back.packet.rows, &value);
    return is_read(q, got, &value, made);
}

const char *pes_convert_trip(const question *q, const outcome *got, unsigned long *made)
{
    const char *differs;

    begin(PACKET_READ, q);
    back.len = q->len;
    memcpy(back.words, q->words, q->len * sizeof *q->words);
    ask(&library_calls, &back, SPOIL_NOTHING, &answer);
    if (answer.numbers[0] != 0) {
        ++*made;
        return as_the_packet(&answer, got);
    }
    back.packet.counter = (uint32_t)answer.numbers[2];
    for (size_t i = 0; i < CAPTIONS_SLOTS; i++) {
        const uint64_t *slot = answer.numbers + 3 + 4 * i;
        back.packet.slots[i] = (captions_slot){(uint8_t)slot[0], (uint8_t)slot[1], (uint8_t)slot[2], (uint8_t)slot[3]};
    }
    memcpy(back.packet.rows, answer.memory, sizeof back.packet.rows);
    differs = other_way(PES_CONVERT_VALUE, q, got, made);
    return differs != NULL ? differs : holds_slots(q, got, made);
}

const char *pes_convert_value_trip(const question *q, const outcome *got, unsigned long *made)
{
    const char *differs;

    begin(PACKET_WRITE, q);
    back.packet = q->packet;
    back.room = CAPTIONS_PACKET_WORDS;
    ask(&library_calls, &back, SPOIL_NOTHING, &answer);
    if (answer.numbers[0] != 0) {
        ++*made;
        return as_the_packet(&answer, got);
    }
    back.len = answer.numbers[2];
    memcpy(back.words, answer.memory, back.len * sizeof *back.words);
    differs = other_way(PES_CONVERT, q, got, made);
    return differs != NULL ? differs : holds_slots(q, got, made);
}
