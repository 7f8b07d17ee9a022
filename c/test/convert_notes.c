/* convert_notes.c: see convert_notes.h. */
#include "convert_notes.h"

#include <stdio.h>
#include <string.h>

#include "model.h"

enum { PATTERNS = 1 << CAPTIONS_SLOTS };

/* From words, and from a value. */
typedef enum way { WORDS, VALUE, WAYS } way;

static const char *const way_names[WAYS] = {"words", "value"};

static struct {
    unsigned long patterns[WAYS][PATTERNS]; /* accepted, by which slots are full */
    unsigned long lines[WAYS][2][LINES];
    unsigned long dropped[WAYS];                /* accepted, with reserved bits */
    unsigned long line_6[WAYS][CAPTIONS_SLOTS]; /* by the lowest slot that has it */
    unsigned long line_6_twice[WAYS], line_6_no_room[WAYS], short_by_one[WAYS], nothing_no_room[WAYS];
    unsigned long line_6_and_15, line_6_and_7, line_6_and_counter; /* of a value */
    unsigned long line_6_and_packet;                               /* of words */
} met;

static void note_converted(way w, const captions_slot *slots)
{
    size_t pattern = 0;
    bool reserved = false;

    for (size_t i = 0; i < CAPTIONS_SLOTS; i++) {
        if (slots[i].full == 0)
            continue;
        pattern |= (size_t)1 << i;
        reserved = reserved || slots[i].reserved != 0;
        met.lines[w][slots[i].field][slots[i].line]++;
    }
    met.patterns[w][pattern]++;
    met.dropped[w] += reserved;
}

/* A legal packet. */
static void note_slots(way w, const question *q, const outcome *got, const captions_slot *slots)
{
    size_t lowest = CAPTIONS_SLOTS, with = 0, full = 0, len;

    for (size_t i = CAPTIONS_SLOTS; i-- > 0;) {
        full += slots[i].full;
        if (slots[i].full == 0 || slots[i].line != 6)
            continue;
        lowest = i;
        with++;
    }
    len = 1 + LAYOUT_DATA_UNIT * full;
    if (lowest < CAPTIONS_SLOTS)
        met.line_6[w][lowest]++;
    met.line_6_twice[w] += with > 1;
    met.line_6_no_room[w] += with > 0 && q->room < len;
    met.short_by_one[w] += got->numbers[0] == 14 && q->room + 1 == len;
    met.nothing_no_room[w] += got->numbers[0] == 14 && full == 0;
    if (got->numbers[0] == 0)
        note_converted(w, slots);
}

/* What a packet of slot i alone is refused with. */
static uint8_t slot_number(const packet_value *v, size_t i)
{
    uint16_t words[CAPTIONS_PACKET_WORDS];
    packet_value alone;

    memset(&alone, 0, sizeof alone);
    alone.slots[i] = v->slots[i];
    alone.rows[i] = v->rows[i];
    return model_packet_write(0, alone.slots, alone.rows, words, CAPTIONS_PACKET_WORDS).refusal.number;
}

/* A value that is no packet's, with line 6 in a slot before the wrong one. */
static void note_bad_value(const packet_value *v)
{
    bool line_6 = false;

    for (size_t i = 0; i < CAPTIONS_SLOTS; i++) {
        uint8_t number = slot_number(v, i);
        met.line_6_and_15 += line_6 && number == 15;
        met.line_6_and_7 += line_6 && number == 7;
        line_6 = line_6 || (v->slots[i].full == 1 && v->slots[i].line == 6);
    }
    met.line_6_and_counter += line_6 && v->counter > 65535;
}

void note_conversion(const question *q, const outcome *got)
{
    captions_row rows[CAPTIONS_SLOTS];
    uint16_t words[CAPTIONS_PACKET_WORDS];
    captions_packet packet;

    if (q->op == PES_CONVERT) {
        packet = model_packet_read(q->words, q->len, rows);
        if (packet.refusal.number == 0)
            note_slots(WORDS, q, got, packet.slots);
        for (size_t i = LAYOUT_DESCRIPTORS; packet.refusal.number != 0 && q->len >= 20 && i < LAYOUT_STRUCTURES; i++)
            met.line_6_and_packet += q->words[i] % 32 == 6;
    } else if (model_packet_write(q->packet.counter, q->packet.slots, q->packet.rows, words, CAPTIONS_PACKET_WORDS)
                   .refusal.number == 0) {
        note_slots(VALUE, q, got, q->packet.slots);
    } else {
        note_bad_value(&q->packet);
    }
}

/* ---- Telling ---- */

static void tell_way(teller with, way w)
{
    char name[96];

    snprintf(name, sizeof name, "%s: each pattern of full slots, at least", way_names[w]);
    tell_least(with, name, met.patterns[w], PATTERNS);
    snprintf(name, sizeof name, "%s: each line of each field, at least", way_names[w]);
    tell_lines(with, name, met.lines[w]);
    snprintf(name, sizeof name, "%s: reserved bits that are dropped", way_names[w]);
    with(name, met.dropped[w]);
    for (int i = 0; i < CAPTIONS_SLOTS; i++) {
        snprintf(name, sizeof name, "%s: line 6, first in slot %d", way_names[w], i);
        with(name, met.line_6[w][i]);
    }
    snprintf(name, sizeof name, "%s: line 6 in two slots", way_names[w]);
    with(name, met.line_6_twice[w]);
    snprintf(name, sizeof name, "%s: line 6, and too short a room", way_names[w]);
    with(name, met.line_6_no_room[w]);
    snprintf(name, sizeof name, "%s: too short a room by one byte", way_names[w]);
    with(name, met.short_by_one[w]);
    snprintf(name, sizeof name, "%s: no full slot, and no room", way_names[w]);
    with(name, met.nothing_no_room[w]);
}

void tell_conversions(teller with)
{
    for (int w = 0; w < WAYS; w++)
        tell_way(with, (way)w);
    with("words: line 6, in a packet that is refused", met.line_6_and_packet);
    with("value: line 6, and 15 in a later slot", met.line_6_and_15);
    with("value: line 6, and a packet's 7 in a later slot", met.line_6_and_7);
    with("value: line 6, and a counter above 65,535", met.line_6_and_counter);
}
