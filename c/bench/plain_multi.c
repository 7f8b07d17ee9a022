/* plain_multi.c: the multipacket; see plain.h. Sections named in comments are those of docs/RULES.md. */
#include "plain.h"
#include "plain_words.h"

#include <string.h>

enum {
    DID = 3, /* index of the first word under CS */
    DC = 5,
    PRIORITY = 6,
    INNERS = 7, /* index of the first inner packet */
    MIN_WORDS = 8,
    MAX_USER_WORDS = 255,
    NDID = 1, /* index in an inner packet, and so on */
    NDC = 3,
    NUSER = 4,
    INNER_WORDS = 5 /* beside the user words */
};

static bool is_subtitling(uint16_t did, uint16_t sdid)
{
    return did == 0x43 && sdid == 0x02;
}

/* ---- Reading ---- */

/* "Order of checks", from 1 to 26. */
static captions_refusal judge_outer(const uint16_t *words, size_t len)
{
    static const uint16_t flag[DID] = {0x000, 0x3FF, 0x3FF};
    static const uint16_t ids[2] = {0x143, 0x203};
    if (len > CAPTIONS_MULTI_WORDS) {
        return at_word(CAPTIONS_TOO_LONG, len);
    }
    if (len < MIN_WORDS) {
        return at_word(CAPTIONS_ENDS, len);
    }
    size_t other = first_other(words, 0, flag, DID);
    if (other < DID) {
        return at_word(CAPTIONS_NO_START, other);
    }
    size_t wrong = first_wrong(words, DID, INNERS);
    if (wrong < INNERS) {
        return at_word(CAPTIONS_WORD, wrong);
    }
    if (words[len - 1] != cs_word(words[len - 1])) {
        return at_word(CAPTIONS_WORD, len - 1);
    }
    other = first_other(words, DID, ids, 2);
    if (other < DC) {
        return at_word(CAPTIONS_FIXED, other);
    }
    if ((words[DC] & 0xFF) != len - 7) {
        return at_word(CAPTIONS_LENGTH, DC);
    }
    return len == MIN_WORDS ? at_word(CAPTIONS_NO_INNER, INNERS) : at_word(CAPTIONS_ACCEPTED, 0);
}

/* The inner packet at word `at`, of `left` words at the most. Adds its words to `sum`. */
static captions_refusal judge_inner(const uint16_t *words, size_t at, size_t left, uint16_t *sum)
{
    const uint16_t *inner = words + at;
    if (left < NUSER) {
        return at_word(CAPTIONS_NO_INNER, at);
    }
    size_t count = inner[NDC] & 0xFF;
    if (left < INNER_WORDS + count) {
        return at_word(CAPTIONS_NO_INNER, at);
    }
    size_t ncs = at + NUSER + count;
    size_t wrong = first_wrong(words, at, ncs);
    if (wrong < ncs || words[ncs] != cs_word(words[ncs])) {
        return at_word(CAPTIONS_WORD, wrong);
    }
    if ((inner[0] & 0xC0) != 0) {
        return at_word(CAPTIONS_FIXED, at);
    }
    uint16_t covered = (uint16_t)(inner[NDID] + inner[NDID + 1] + inner[NDC]);
    if (inner[NDID] == 0x143 && inner[NDID + 1] == 0x102) {
        uint16_t user = 0;
        captions_refusal refusal = count < USER_WORDS ? at_word(CAPTIONS_ENDS, ncs) :
                                                        judge_user(inner + NUSER, count, at + NUSER, &user);
        if (refusal.number != CAPTIONS_ACCEPTED) {
            return refusal;
        }
        covered += user;
    } else {
        covered += sum_of(inner + NUSER, count);
    }
    *sum += (uint16_t)(inner[0] + covered + words[ncs]);
    return words[ncs] == cs_word(covered) ? at_word(CAPTIONS_ACCEPTED, 0) : at_word(CAPTIONS_CHECKSUM, ncs);
}

static captions_refusal judge_multi(const uint16_t *words, size_t len)
{
    captions_refusal refusal = judge_outer(words, len);
    if (refusal.number != CAPTIONS_ACCEPTED) {
        return refusal;
    }
    uint16_t sum = sum_of(words + DID, INNERS - DID);
    for (size_t at = INNERS; at < len - 1; at += INNER_WORDS + (words[at + NDC] & 0xFF)) {
        refusal = judge_inner(words, at, len - 1 - at, &sum);
        if (refusal.number != CAPTIONS_ACCEPTED) {
            return refusal;
        }
    }
    return words[len - 1] == cs_word(sum) ? at_word(CAPTIONS_ACCEPTED, 0) : at_word(CAPTIONS_CHECKSUM, len - 1);
}

captions_multi plain_multi_read(const uint16_t *words, size_t len, captions_inner inners[static CAPTIONS_INNERS])
{
    captions_refusal refusal = judge_multi(words, len);
    if (refusal.number != CAPTIONS_ACCEPTED) {
        return (captions_multi){.refusal = refusal};
    }
    captions_multi answer = {.priority = (uint8_t)words[PRIORITY]};
    for (size_t at = INNERS; at < len - 1; answer.n++) {
        const uint16_t *inner = words + at;
        uint16_t count = inner[NDC] & 0xFF;
        inners[answer.n] = (captions_inner){
            inner[0] & 31, inner[0] >> 5 & 1, inner[NDID] & 0xFF, inner[NDID + 1] & 0xFF, (uint16_t)(at + NUSER), count,
        };
        at += INNER_WORDS + count;
    }
    memset(inners + answer.n, 0, (CAPTIONS_INNERS - answer.n) * sizeof inners[0]);
    return answer;
}

/* ---- Writing ---- */

static captions_written refused(uint8_t number)
{
    return (captions_written){.refusal = {number, 0}};
}

/* 15, 11, and in a subtitling packet its own. */
static uint8_t judge_value(const captions_inner *inner, const uint16_t *words, size_t len)
{
    size_t end = (size_t)inner->at + inner->count;
    if (inner->line > 31 || inner->field > 1 || inner->did > 255 || inner->sdid > 255 || end > len) {
        return CAPTIONS_UNHOLDABLE;
    }
    if (first_wrong(words, inner->at, end) < end) {
        return CAPTIONS_WORD;
    }
    if (!is_subtitling(inner->did, inner->sdid)) {
        return CAPTIONS_ACCEPTED;
    }
    uint16_t sum;
    return inner->count < USER_WORDS ? CAPTIONS_ENDS : judge_user(words + inner->at, inner->count, 1, &sum).number;
}

/* Answers the sum of what it stores. */
static uint16_t put_inner(const captions_inner *inner, const uint16_t *restrict user, uint16_t *restrict out)
{
    uint16_t place = word_of((uint16_t)(inner->line | inner->field << 5));
    uint16_t did = word_of(inner->did);
    uint16_t sdid = word_of(inner->sdid);
    uint16_t count = word_of(inner->count);
    uint16_t covered = (uint16_t)(did + sdid + count + sum_of(user, inner->count));
    uint16_t ncs = cs_word(covered);
    out[0] = place;
    out[NDID] = did;
    out[NDID + 1] = sdid;
    out[NDC] = count;
    memcpy(out + NUSER, user, inner->count * sizeof out[0]);
    out[NUSER + inner->count] = ncs;
    return (uint16_t)(place + covered + ncs);
}

captions_written plain_multi_write(uint32_t priority, const captions_inner *inners, size_t n,
                                   const uint16_t *words, size_t len, uint16_t *out, size_t room)
{
    if (priority > 255) {
        return refused(CAPTIONS_UNHOLDABLE);
    }
    if (n == 0) {
        return refused(CAPTIONS_NO_INNER);
    }
    /* Every inner packet is judged before the first word is stored. */
    size_t user = 1;
    for (size_t i = 0; i < n; i++) {
        uint8_t number = judge_value(&inners[i], words, len);
        if (number != CAPTIONS_ACCEPTED) {
            return refused(number);
        }
        user += INNER_WORDS + (size_t)inners[i].count;
    }
    if (user > MAX_USER_WORDS) {
        return refused(CAPTIONS_LENGTH);
    }
    if (user + 7 > room) {
        return refused(CAPTIONS_NO_ROOM);
    }
    const uint16_t head[INNERS] = {
        0x000, 0x3FF, 0x3FF, 0x143, 0x203, word_of((uint16_t)user), word_of((uint16_t)priority),
    };
    memcpy(out, head, sizeof head);
    uint16_t sum = sum_of(head + DID, INNERS - DID);
    uint16_t *next = out + INNERS;
    for (size_t i = 0; i < n; i++) {
        sum += put_inner(&inners[i], words + inners[i].at, next);
        next += INNER_WORDS + inners[i].count;
    }
    *next = cs_word(sum);
    return (captions_written){.len = user + 7};
}
