/* model_words.c: the subtitling packet and the Line 21 payload by RULES. */
#include "model.h"

#include <string.h>

#include "layout.h"

/* A writer's refusal has no place. */
static captions_written refused(uint8_t number)
{
    return (captions_written){.refusal = {number, 0}};
}

/* ---- Reading a packet (RULES, "Subtitling packet"; SMPTE 291M for parity and CS) ---- */

/* A packet's refusal has as its place the word that is wrong, or where its length is wrong the number of its words. */
static captions_refusal at_word(uint8_t number, size_t word)
{
    return (captions_refusal){number, word};
}

static captions_refusal not_refused(void)
{
    return (captions_refusal){0, 0};
}

/* The first of `count` words from `at` on whose byte is not the right one. */
static captions_refusal judge_fixed(const uint8_t *bytes, size_t at, const uint8_t *right, size_t count, uint8_t number)
{
    for (size_t i = 0; i < count; i++)
        if (bytes[at + i] != right[i])
            return at_word(number, at + i);
    return not_refused();
}

static unsigned bit_of(uint16_t word, unsigned bit)
{
    return word >> bit & 1;
}

bool model_word_is_right(uint16_t word)
{
    unsigned ones = 0;

    for (unsigned bit = 0; bit < 8; bit++)
        ones += bit_of(word, bit);
    return word <= 1023 && bit_of(word, 8) == ones % 2 && bit_of(word, 9) != bit_of(word, 8);
}

bool model_cs_is_formed(uint16_t word)
{
    return word <= 1023 && bit_of(word, 9) != bit_of(word, 8);
}

static captions_refusal judge_words(const uint16_t *words, size_t len)
{
    for (size_t i = 3; i < len - 1; i++)
        if (!model_word_is_right(words[i]))
            return at_word(11, i);
    return model_cs_is_formed(words[len - 1]) ? not_refused() : at_word(11, len - 1);
}

static captions_refusal judge_flag_words(const uint16_t *words)
{
    static const uint16_t flag[] = {0x000, 0x3FF, 0x3FF};

    for (size_t i = 0; i < 3; i++)
        if (words[i] != flag[i])
            return at_word(2, i);
    return not_refused();
}

static bool line_is_legal(unsigned line)
{
    return line == 0 || (line >= 6 && line <= 22);
}

/* Two bytes of run-in and the framing code before each structure's 42 bytes, and the footer behind the last structure. */
static captions_refusal judge_structures(const uint8_t *bytes, size_t structures)
{
    static const uint8_t front[] = {0x55, 0x55, 0x27}, footer[] = {0x74};
    size_t at = LAYOUT_STRUCTURES;

    for (size_t i = 0; i < structures; i++, at += LAYOUT_STRUCTURE) {
        captions_refusal wrong = judge_fixed(bytes, at, front, 3, 20);
        if (wrong.number != 0)
            return wrong;
    }
    return judge_fixed(bytes, at, footer, 1, 6);
}

/* The user bytes from 51 to the SDP checksum add up to 0 modulo 256. */
static bool sdp_checksum_is_right(const uint8_t *bytes, size_t count)
{
    unsigned sum = 0;

    for (size_t i = 0; i < count; i++)
        sum += bytes[LAYOUT_USER + i];
    return sum % 256 == 0;
}

bool model_cs_is_right(const uint16_t *words, size_t count, uint16_t cs)
{
    unsigned sum = 0;

    for (size_t i = 0; i < count; i++)
        sum += words[i] & 0x1FF;
    return sum % 512 == (cs & 0x1FF);
}

/* The descriptors, and the structures for which they stand against DC, which is at fault where the two differ. */
static captions_refusal judge_descriptors(const uint8_t *bytes, size_t count)
{
    size_t structures = 0;

    for (size_t i = LAYOUT_DESCRIPTORS; i < LAYOUT_STRUCTURES; i++) {
        if (!line_is_legal(bytes[i] % 32))
            return at_word(7, i);
        if (bytes[i] != 0)
            structures++;
    }
    if (count != 13 + 45 * structures)
        return at_word(13, LAYOUT_DC);
    return judge_structures(bytes, structures);
}

captions_refusal model_judge_user(const uint8_t *bytes, size_t count)
{
    static const uint8_t identifiers[] = {0x51, 0x15}, format[] = {0x02};
    captions_refusal wrong = judge_fixed(bytes, LAYOUT_USER, identifiers, 2, 6);

    if (wrong.number == 0 && bytes[LAYOUT_USER + 2] != count) /* LENGTH */
        wrong = at_word(13, LAYOUT_USER + 2);
    if (wrong.number == 0)
        wrong = judge_fixed(bytes, LAYOUT_USER + 3, format, 1, 6);
    if (wrong.number == 0)
        wrong = judge_descriptors(bytes, count);
    if (wrong.number == 0 && !sdp_checksum_is_right(bytes, count))
        wrong = at_word(12, LAYOUT_DC + count);
    return wrong;
}

/* DID, SDID and DC, when every word has its right parity; bytes[i] is b7 to b0 of word i. */
static captions_refusal judge_head(const uint8_t *bytes, size_t len)
{
    static const uint8_t ids[] = {0x43, 0x02};
    captions_refusal wrong = judge_fixed(bytes, 3, ids, 2, 6);

    if (wrong.number == 0 && bytes[LAYOUT_DC] != len - 7)
        wrong = at_word(13, LAYOUT_DC);
    return wrong;
}

static captions_refusal judge_packet(const uint16_t *words, size_t len, uint8_t *bytes)
{
    captions_refusal wrong;

    if (len > CAPTIONS_PACKET_WORDS)
        return at_word(1, len);
    if (len < 20)
        return at_word(5, len);
    wrong = judge_flag_words(words);
    if (wrong.number == 0)
        wrong = judge_words(words, len);
    for (size_t i = 0; i < len; i++)
        bytes[i] = (uint8_t)(words[i] & 0xFF);
    if (wrong.number == 0)
        wrong = judge_head(bytes, len);
    if (wrong.number == 0)
        wrong = model_judge_user(bytes, len - 7);
    if (wrong.number == 0 && !model_cs_is_right(words + 3, len - 4, words[len - 1]))
        wrong = at_word(12, len - 1);
    return wrong;
}

captions_packet model_packet_read(const uint16_t *words, size_t len, captions_row *rows)
{
    uint8_t bytes[CAPTIONS_PACKET_WORDS] = {0};
    captions_packet packet = {0};
    size_t at = LAYOUT_STRUCTURES;

    packet.refusal = judge_packet(words, len, bytes);
    if (packet.refusal.number != 0)
        return packet;
    for (size_t i = 0; i < CAPTIONS_SLOTS; i++) {
        uint8_t descriptor = bytes[LAYOUT_DESCRIPTORS + i];
        rows[i] = (captions_row){0};
        if (descriptor == 0)
            continue; /* empty exactly when its descriptor is 0 */
        packet.slots[i] = (captions_slot){1, descriptor % 32, descriptor / 32 % 4, descriptor / 128};
        memcpy(rows[i].bytes, bytes + at + 3, CAPTIONS_ROW_BYTES);
        at += LAYOUT_STRUCTURE;
    }
    packet.counter = bytes[at + 1] * 256u + bytes[at + 2];
    return packet;
}

/* ---- Writing a packet ---- */

static bool row_is_zero(const captions_row *row)
{
    for (size_t i = 0; i < CAPTIONS_ROW_BYTES; i++)
        if (row->bytes[i] != 0)
            return false;
    return true;
}

/* No packet holds a full slot whose descriptor is 0, or an empty one that is not all zero. */
static uint8_t judge_slot(const captions_slot *slot, const captions_row *row)
{
    bool zero = slot->line == 0 && slot->reserved == 0 && slot->field == 0;

    if (slot->full > 1 || slot->line > 31 || slot->reserved > 3 || slot->field > 1)
        return 15;
    if (slot->full == 1 && zero)
        return 15;
    if (slot->full == 0 && !(zero && row_is_zero(row)))
        return 15;
    return line_is_legal(slot->line) ? 0 : 7;
}

captions_written model_packet_write(uint32_t counter, const captions_slot *slots, const captions_row *rows,
                                    uint16_t *out, size_t room)
{
    uint16_t made[CAPTIONS_PACKET_WORDS];
    packet_value value = {.counter = counter};
    size_t len;

    if (counter > 65535)
        return refused(15);
    for (size_t i = 0; i < CAPTIONS_SLOTS; i++) {
        uint8_t number = judge_slot(&slots[i], &rows[i]);
        if (number != 0)
            return refused(number);
    }
    memcpy(value.slots, slots, sizeof value.slots);
    memcpy(value.rows, rows, sizeof value.rows);
    len = layout_packet(&value, made);
    if (len > room)
        return refused(14);
    memcpy(out, made, len * sizeof *out);
    return (captions_written){.len = len};
}

/* ---- Line 21 payload (RULES, "Line 21 payload") ---- */

captions_payload model_payload_read(const uint8_t *payload, size_t len, captions_access_unit *units)
{
    captions_payload answer = {0};

    /* Only the length can be wrong, and it is the place of each refusal. */
    if (len == 0)
        return (captions_payload){.refusal = {2, len}};
    if (len > CAPTIONS_PAYLOAD_BYTES)
        return (captions_payload){.refusal = {1, len}};
    if ((len - 1) % 5 != 0)
        return (captions_payload){.refusal = {13, len}};
    answer.flags = payload[0];
    answer.m = (len - 1) / 5;
    memset(units, 0, CAPTIONS_ACCESS_UNITS * sizeof *units);
    for (size_t i = 0; i < answer.m; i++) {
        const uint8_t *unit = payload + 1 + 5 * i;
        units[i] = (captions_access_unit){unit[0] / 128, unit[0] / 64 % 2, unit[0] % 64, unit[1], unit[2], unit[3], unit[4]};
    }
    return answer;
}

uint8_t model_judge_payload(uint32_t flags, size_t m, const captions_access_unit *units, size_t room)
{
    if (flags > 255 || m > CAPTIONS_ACCESS_UNITS)
        return 15;
    for (size_t i = 0; i < m; i++)
        if (units[i].cc_valid_1 > 1 || units[i].cc_valid_2 > 1 || units[i].padding > 63)
            return 15;
    return 1 + 5 * m > room ? 14 : 0;
}

captions_written model_payload_write(uint32_t flags, size_t m, const captions_access_unit *units, uint8_t *out, size_t room)
{
    payload_value value = {.flags = flags, .m = m};
    uint8_t number = model_judge_payload(flags, m, units, room);

    if (number != 0)
        return refused(number);
    memcpy(value.units, units, m * sizeof *units);
    return (captions_written){.len = layout_payload(&value, out)};
}
