/* multi_trips.c: see multi_trips.h. */
#include "multi_trips.h"

#include <string.h>

static question back;
static outcome expected, answer;

static void begin(operation op, const question *q)
{
    back.op = op;
    back.fill = (uint16_t)(q->fill + 0x8080);
    back.at = q->at == AT_END ? AT_FRONT : AT_END;
    back.nulls = !q->nulls;
}

static const char *compare(unsigned long *made)
{
    ++*made;
    ask(&library_calls, &back, SPOIL_NOTHING, &answer);
    return difference(&back, &expected, &answer);
}

/* ---- A subtitling packet by itself ---- */

/* What captions_packet_read answered, written again. */
static const char *packet_is_written(const question *q, const uint16_t *words, size_t len, unsigned long *made)
{
    begin(PACKET_WRITE, q);
    back.packet.counter = (uint32_t)answer.numbers[2];
    for (size_t i = 0; i < CAPTIONS_SLOTS; i++) {
        const uint64_t *slot = answer.numbers + 3 + 4 * i;
        back.packet.slots[i] = (captions_slot){(uint8_t)slot[0], (uint8_t)slot[1], (uint8_t)slot[2], (uint8_t)slot[3]};
    }
    memcpy(back.packet.rows, answer.memory, sizeof back.packet.rows);
    back.room = len;
    outcome_begin(&back, &expected);
    expected.numbers[2] = len;
    memcpy(expected.memory, words, len * sizeof *words);
    return compare(made);
}

/* The words of a multipacket from NDID on, with the flag before them. */
static const char *packet_is_read(const question *q, const uint16_t *words, const captions_inner *inner, unsigned long *made)
{
    uint16_t packet[CAPTIONS_PACKET_WORDS] = {0x000, 0x3FF, 0x3FF};
    size_t len = LAYOUT_USER + (size_t)inner->count + 1;

    if (len > CAPTIONS_PACKET_WORDS)
        return "a subtitling packet with more user words than one has";
    memcpy(packet + 3, words + inner->at - 3, (len - 3) * sizeof *packet);
    begin(PACKET_READ, q);
    back.len = len;
    memcpy(back.words, packet, len * sizeof *packet);
    ++*made;
    ask(&library_calls, &back, SPOIL_NOTHING, &answer);
    if (answer.numbers[0] != 0)
        return "a subtitling packet in a multipacket that is none by itself";
    return packet_is_written(q, packet, len, made);
}

static const char *packets_are_read(const question *q, const uint16_t *words, const captions_inner *inners, size_t n,
                                    unsigned long *made)
{
    for (size_t i = 0; i < n; i++)
        if (inners[i].did == 0x43 && inners[i].sdid == 0x02) {
            const char *differs = packet_is_read(q, words, &inners[i], made);
            if (differs != NULL)
                return differs;
        }
    return NULL;
}

/* ---- There and back ---- */

const char *multi_read_trip(const question *q, const outcome *got, unsigned long *made)
{
    const char *differs;
    captions_inner inners[CAPTIONS_INNERS];

    memcpy(inners, got->memory, sizeof inners);
    begin(MULTI_WRITE, q);
    back.multi.priority = (uint32_t)got->numbers[2];
    back.multi.n = got->numbers[3];
    memcpy(back.multi.inners, inners, sizeof inners);
    back.multi.len = q->len;
    memcpy(back.multi.words, q->words, q->len * sizeof *q->words);
    back.room = q->len;
    outcome_begin(&back, &expected);
    expected.numbers[2] = q->len;
    memcpy(expected.memory, q->words, q->len * sizeof *q->words);
    differs = compare(made);
    return differs != NULL ? differs : packets_are_read(q, q->words, inners, got->numbers[3], made);
}

const char *multi_write_trip(const question *q, const outcome *got, unsigned long *made)
{
    const multi_value *value = &q->multi;
    size_t at = LAYOUT_INNERS;
    const char *differs;

    begin(MULTI_READ, q);
    back.len = got->numbers[2];
    memcpy(back.words, got->memory, back.len * sizeof *back.words);
    outcome_begin(&back, &expected);
    expected.numbers[2] = value->priority;
    expected.numbers[3] = value->n;
    memset(expected.memory, 0, expected.size);
    for (size_t i = 0; i < value->n; i++) {
        captions_inner inner = value->inners[i];
        inner.at = (uint16_t)(at + LAYOUT_NUSER);
        at += LAYOUT_INNER + (size_t)inner.count;
        memcpy(expected.memory + i * sizeof inner, &inner, sizeof inner);
        if (memcmp(back.words + inner.at, value->words + value->inners[i].at, inner.count * sizeof *back.words) != 0)
            return "user words that are not those that were lent";
    }
    differs = compare(made);
    if (differs != NULL)
        return differs;
    memcpy(back.multi.inners, answer.memory, answer.size);
    memcpy(back.multi.words, got->memory, (size_t)got->numbers[2] * sizeof *back.multi.words);
    return packets_are_read(q, back.multi.words, back.multi.inners, value->n, made);
}
