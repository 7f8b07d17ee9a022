/* plain_packet.c: the subtitling packet; see plain.h. Sections named in comments are those of docs/RULES.md. */
#include "plain_packet.h"
#include "plain_words.h"

#include <string.h>

enum {
    DID = 3, /* index of the first word under CS */
    DC = 5,
    USER = 6, /* index of the first user word */
    DESCRIPTORS = USER + USER_DESCRIPTORS,
    STRUCTURES = USER + USER_STRUCTURES,
    MIN_WORDS = 20
};

/* "Order of checks", from 1 to DC. Every word's upper bits follow from its byte once 11 is judged. */
static captions_refusal judge_head(const uint16_t *words, size_t len)
{
    static const uint16_t flag[DID] = {0x000, 0x3FF, 0x3FF};
    static const uint16_t ids[2] = {0x143, 0x102};
    if (len > CAPTIONS_PACKET_WORDS) {
        return at_word(CAPTIONS_TOO_LONG, len);
    }
    if (len < MIN_WORDS) {
        return at_word(CAPTIONS_ENDS, len);
    }
    size_t other = first_other(words, 0, flag, DID);
    if (other < DID) {
        return at_word(CAPTIONS_NO_START, other);
    }
    size_t wrong = first_wrong(words, DID, len - 1);
    if (wrong < len - 1 || words[wrong] != cs_word(words[wrong])) {
        return at_word(CAPTIONS_WORD, wrong);
    }
    other = first_other(words, DID, ids, 2);
    if (other < DC) {
        return at_word(CAPTIONS_FIXED, other);
    }
    return (words[DC] & 0xFF) == len - 7 ? at_word(CAPTIONS_ACCEPTED, 0) : at_word(CAPTIONS_LENGTH, DC);
}

static captions_refusal judge_packet(const uint16_t *words, size_t len)
{
    captions_refusal refusal = judge_head(words, len);
    if (refusal.number != CAPTIONS_ACCEPTED) {
        return refusal;
    }
    uint16_t user = 0;
    refusal = judge_user(words + USER, len - 7, USER, &user);
    if (refusal.number != CAPTIONS_ACCEPTED) {
        return refusal;
    }
    uint16_t all = (uint16_t)(user + words[DID] + words[DID + 1] + words[DC]);
    return words[len - 1] == cs_word(all) ? at_word(CAPTIONS_ACCEPTED, 0) : at_word(CAPTIONS_CHECKSUM, len - 1);
}

captions_packet plain_packet_read(const uint16_t *words, size_t len,
                                  captions_row rows[static CAPTIONS_SLOTS])
{
    captions_refusal refusal = judge_packet(words, len);
    if (refusal.number != CAPTIONS_ACCEPTED) {
        return (captions_packet){.refusal = refusal};
    }
    captions_packet packet = {.counter = (words[len - 4] & 0xFFu) << 8 | (words[len - 3] & 0xFFu)};
    const uint16_t *next = words + STRUCTURES + 3;
    for (size_t i = 0; i < CAPTIONS_SLOTS; i++) {
        uint8_t descriptor = (uint8_t)words[DESCRIPTORS + i];
        packet.slots[i] = (captions_slot){descriptor != 0, descriptor & 31, descriptor >> 5 & 3, descriptor >> 7};
        if (descriptor == 0) {
            rows[i] = (captions_row){0};
            continue;
        }
        for (size_t j = 0; j < CAPTIONS_ROW_BYTES; j++) {
            rows[i].bytes[j] = (uint8_t)next[j];
        }
        next += STRUCTURE_WORDS;
    }
    return packet;
}

static uint8_t descriptor_of(captions_slot slot)
{
    return (uint8_t)(slot.line | slot.reserved << 5 | slot.field << 7);
}

static bool row_is_zero(const captions_row *row)
{
    static const captions_row zeros;
    return memcmp(row, &zeros, sizeof zeros) == 0;
}

/* 15, then 7. The mark says what the descriptor says, and an empty slot has a row of zeros. */
static uint8_t judge_slot(captions_slot slot, const captions_row *row)
{
    if (slot.full > 1 || slot.line > 31 || slot.reserved > 3 || slot.field > 1) {
        return CAPTIONS_UNHOLDABLE;
    }
    if ((descriptor_of(slot) != 0) != (slot.full == 1)) {
        return CAPTIONS_UNHOLDABLE;
    }
    if (slot.full == 0 && !row_is_zero(row)) {
        return CAPTIONS_UNHOLDABLE;
    }
    return line_holds(slot.line) ? CAPTIONS_ACCEPTED : CAPTIONS_FIELD_OR_LINE;
}

uint8_t plain_judge_packet(uint32_t counter, const captions_slot slots[static CAPTIONS_SLOTS],
                           const captions_row rows[static CAPTIONS_SLOTS])
{
    if (counter > 0xFFFF) {
        return CAPTIONS_UNHOLDABLE;
    }
    for (size_t i = 0; i < CAPTIONS_SLOTS; i++) {
        uint8_t number = judge_slot(slots[i], &rows[i]);
        if (number != CAPTIONS_ACCEPTED) {
            return number;
        }
    }
    return CAPTIONS_ACCEPTED;
}

/* Three fixed words and the row's. Answers their sum. */
static uint16_t put_structure(const captions_row *restrict row, uint16_t *restrict out)
{
    out[0] = 0x255;
    out[1] = 0x255;
    out[2] = 0x227;
    uint16_t sum = 0x255 + 0x255 + 0x227;
    for (size_t j = 0; j < CAPTIONS_ROW_BYTES; j++) {
        uint16_t word = word_of(row->bytes[j]);
        out[3 + j] = word;
        sum += word;
    }
    return sum;
}

captions_written plain_packet_write(uint32_t counter, const captions_slot slots[static CAPTIONS_SLOTS],
                                    const captions_row rows[static CAPTIONS_SLOTS],
                                    uint16_t *out, size_t room)
{
    uint8_t number = plain_judge_packet(counter, slots, rows);
    if (number != CAPTIONS_ACCEPTED) {
        return (captions_written){.refusal = {number, 0}};
    }
    size_t len = MIN_WORDS;
    for (size_t i = 0; i < CAPTIONS_SLOTS; i++) {
        len += slots[i].full ? STRUCTURE_WORDS : 0;
    }
    if (len > room) {
        return (captions_written){.refusal = {CAPTIONS_NO_ROOM, 0}};
    }
    const uint16_t count = word_of((uint16_t)(len - 7));
    const uint16_t head[DESCRIPTORS] = {0x000, 0x3FF, 0x3FF, 0x143, 0x102, count, 0x151, 0x115, count, 0x102};
    memcpy(out, head, sizeof head);
    uint16_t user = 0x151 + 0x115 + 0x102 + count; /* the sum of the user words so far */
    uint16_t *next = out + STRUCTURES;
    for (size_t i = 0; i < CAPTIONS_SLOTS; i++) {
        uint16_t descriptor = word_of(descriptor_of(slots[i]));
        out[DESCRIPTORS + i] = descriptor;
        user += descriptor;
        if (slots[i].full) {
            user += put_structure(&rows[i], next);
            next += STRUCTURE_WORDS;
        }
    }
    next[0] = 0x274;
    next[1] = word_of((uint16_t)(counter >> 8));
    next[2] = word_of(counter & 0xFF);
    user += next[0] + next[1] + next[2];
    /* The user bytes add up to 0 modulo 256; CS covers what the SDP checksum completes. */
    next[3] = word_of(-user & 0xFF);
    next[4] = cs_word((uint16_t)(user + next[3] + 0x143 + 0x102 + count));
    return (captions_written){.len = len};
}
