/* plain_words.h: words of SMPTE 291M, and the user words of a subtitling packet, which stand in a multipacket too. */
#ifndef PLAIN_WORDS_H
#define PLAIN_WORDS_H

#include "../captions.h"

enum {
    USER_WORDS = 13,     /* the fewest of a subtitling packet */
    USER_LENGTH = 2,     /* index of a user word, and so on */
    USER_FORMAT = 3,
    USER_DESCRIPTORS = 4,
    USER_STRUCTURES = USER_DESCRIPTORS + CAPTIONS_SLOTS,
    STRUCTURE_WORDS = 3 + CAPTIONS_ROW_BYTES
};

/* A byte as a word: b8 its even parity, b9 the inverse of b8. Shifts rather than a table, so that loops are vectorised. */
static inline uint16_t word_of(uint16_t byte)
{
    uint16_t four = byte ^ byte >> 4;
    uint16_t two = four ^ four >> 2;
    uint16_t parity = (two ^ two >> 1) & 1;
    return (uint16_t)(byte + 0x200 - 0x100 * parity);
}

/* Modulo 512 this is the sum of the low nine bits, and modulo 256 that of the bytes. */
static inline uint16_t sum_of(const uint16_t *words, size_t len)
{
    uint16_t sum = 0;
    for (size_t i = 0; i < len; i++) {
        sum += words[i];
    }
    return sum;
}

/* CS, whose b8 is a bit of the sum and no parity. */
static inline uint16_t cs_word(uint16_t sum)
{
    sum &= 0x1FF;
    return (uint16_t)(sum | (~sum & 0x100) << 1);
}

/* What reading words says: 0 twice, or a number and the word. */
static inline captions_refusal at_word(uint8_t number, size_t word)
{
    return (captions_refusal){number, word};
}

/* The first of the `count` words from `at` on that is not as in `right`, or the word behind them. */
static inline size_t first_other(const uint16_t *words, size_t at, const uint16_t *right, size_t count)
{
    for (size_t i = 0; i < count; i++) {
        if (words[at + i] != right[i]) {
            return at + i;
        }
    }
    return at + count;
}

/*
 * The first word from `at` on, before `end`, that is not its byte's, or `end`. Which one it is is asked only where one is, so
 * that the first loop is vectorised.
 */
static inline size_t first_wrong(const uint16_t *words, size_t at, size_t end)
{
    uint16_t wrong = 0;
    for (size_t i = at; i < end; i++) {
        wrong |= words[i] ^ word_of(words[i] & 0xFF);
    }
    if (wrong == 0) {
        return end;
    }
    while (words[at] == word_of(words[at] & 0xFF)) {
        at++;
    }
    return at;
}

/* Legal are line 0, and lines 6 to 22 ("Subtitling packet"). */
static inline bool line_holds(uint8_t line)
{
    return line == 0 || (line >= 6 && line <= 22);
}

/* From 51 to DC against k. DC stands before the `count` user words, 13 at least, of which the first is word `at`. */
static inline captions_refusal judge_user_head(const uint16_t *user, size_t count, size_t at)
{
    static const uint16_t identifiers[2] = {0x151, 0x115};
    size_t other = first_other(user, 0, identifiers, 2);
    if (other < USER_LENGTH) {
        return at_word(CAPTIONS_FIXED, at + other);
    }
    if ((user[USER_LENGTH] & 0xFF) != count) {
        return at_word(CAPTIONS_LENGTH, at + USER_LENGTH);
    }
    if (user[USER_FORMAT] != 0x102) {
        return at_word(CAPTIONS_FIXED, at + USER_FORMAT);
    }
    size_t k = 0;
    for (size_t i = USER_DESCRIPTORS; i < USER_STRUCTURES; i++) {
        if (!line_holds(user[i] & 31)) {
            return at_word(CAPTIONS_FIELD_OR_LINE, at + i);
        }
        k += (user[i] & 0xFF) != 0;
    }
    return count == USER_WORDS + STRUCTURE_WORDS * k ? at_word(CAPTIONS_ACCEPTED, 0) : at_word(CAPTIONS_LENGTH, at - 1);
}

/*
 * "Order of checks", from 51 to the SDP checksum, when every word has its right upper bits. Stores the sum of the user words
 * where all hold.
 */
static inline captions_refusal judge_user(const uint16_t *user, size_t count, size_t at, uint16_t *sum)
{
    static const uint16_t front[3] = {0x255, 0x255, 0x227};
    captions_refusal refusal = judge_user_head(user, count, at);
    if (refusal.number != CAPTIONS_ACCEPTED) {
        return refusal;
    }
    size_t footer = count - 4;
    for (size_t i = USER_STRUCTURES; i < footer; i += STRUCTURE_WORDS) {
        size_t other = first_other(user, i, front, 3);
        if (other < i + 3) {
            return at_word(CAPTIONS_RUN_IN, at + other);
        }
    }
    if (user[footer] != 0x274) {
        return at_word(CAPTIONS_FIXED, at + footer);
    }
    *sum = sum_of(user, count);
    return (*sum & 0xFF) == 0 ? at_word(CAPTIONS_ACCEPTED, 0) : at_word(CAPTIONS_CHECKSUM, at + count - 1);
}

#endif
