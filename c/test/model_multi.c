/* model_multi.c: the multipacket by document 02, request 8, and RDD 8, clause 6. */
#include "model.h"

#include <string.h>

#include "layout.h"

enum { MULTI_LEAST = 8, HEADER_WORDS = 4 /* of an inner packet, LINE/FIELD to NDC */ };

static captions_refusal at_word(uint8_t number, size_t word)
{
    return (captions_refusal){number, word};
}

static captions_refusal not_refused(void)
{
    return (captions_refusal){0, 0};
}

static uint8_t byte_of(uint16_t word)
{
    return (uint8_t)(word & 0xFF);
}

/* What 143, 102 carries is judged. */
static bool is_subtitling(unsigned did, unsigned sdid)
{
    return did == 0x43 && sdid == 0x02;
}

/* The user words of an inner packet of 143, 102: 01's rules for them. Fewer than 13 end where the next user word should be. */
static captions_refusal judge_subtitles(const uint16_t *user, size_t count)
{
    static uint8_t bytes[LAYOUT_USER + MULTI_LENT_MAX];

    if (count < LAYOUT_SUBTITLES)
        return at_word(5, LAYOUT_USER + count);
    for (size_t i = 0; i < count; i++)
        bytes[LAYOUT_USER + i] = byte_of(user[i]);
    return model_judge_user(bytes, count);
}

/* ---- Reading ---- */

/* A word of a packet, as the word that it is in a multipacket where LINE/FIELD of the inner packet is word `at`. */
static captions_refusal in_multipacket(captions_refusal refused, size_t at)
{
    if (refused.number != 0)
        refused.place = at + LAYOUT_NDC + (refused.place - LAYOUT_DC); /* NDC is where a packet has DC */
    return refused;
}

/* All words of the inner packet are there. */
static captions_refusal judge_inner_words(const uint16_t *words, size_t at, size_t ncs)
{
    for (size_t i = at; i < ncs; i++)
        if (!model_word_is_right(words[i]))
            return at_word(11, i);
    return model_cs_is_formed(words[ncs]) ? not_refused() : at_word(11, ncs);
}

/* The inner packet at word `at`; words[end] is CS. Gives in `next` where the one behind it begins. */
static captions_refusal judge_inner(const uint16_t *words, size_t at, size_t end, size_t *next)
{
    size_t left = end - at, count, ncs;
    captions_refusal wrong;

    if (left < HEADER_WORDS)
        return at_word(26, at);
    count = byte_of(words[at + LAYOUT_NDC]);
    if (left < LAYOUT_INNER + count)
        return at_word(26, at);
    ncs = at + LAYOUT_NUSER + count;
    *next = ncs + 1;
    wrong = judge_inner_words(words, at, ncs);
    if (wrong.number == 0 && byte_of(words[at]) >= 64) /* b6, b7 */
        wrong = at_word(6, at);
    if (wrong.number == 0 && is_subtitling(byte_of(words[at + 1]), byte_of(words[at + 2])))
        wrong = in_multipacket(judge_subtitles(words + at + LAYOUT_NUSER, count), at);
    if (wrong.number == 0 && !model_cs_is_right(words + at + 1, LAYOUT_NDC + count, words[ncs]))
        wrong = at_word(12, ncs);
    return wrong;
}

/* The header, the priority, and the form of CS. */
static captions_refusal judge_outer(const uint16_t *words, size_t len)
{
    static const uint16_t flag[] = {0x000, 0x3FF, 0x3FF};

    if (len > CAPTIONS_MULTI_WORDS)
        return at_word(1, len);
    if (len < MULTI_LEAST)
        return at_word(5, len);
    for (size_t i = 0; i < 3; i++)
        if (words[i] != flag[i])
            return at_word(2, i);
    for (size_t i = 3; i < LAYOUT_INNERS; i++)
        if (!model_word_is_right(words[i]))
            return at_word(11, i);
    if (!model_cs_is_formed(words[len - 1]))
        return at_word(11, len - 1);
    if (words[3] != 0x143)
        return at_word(6, 3);
    if (words[4] != 0x203)
        return at_word(6, 4);
    if (byte_of(words[LAYOUT_DC]) != len - 7)
        return at_word(13, LAYOUT_DC);
    return len == MULTI_LEAST ? at_word(26, LAYOUT_INNERS) : not_refused();
}

static captions_inner inner_at(const uint16_t *words, size_t at)
{
    uint8_t place = byte_of(words[at]);

    return (captions_inner){place % 32, place / 32, byte_of(words[at + 1]), byte_of(words[at + 2]),
                            (uint16_t)(at + LAYOUT_NUSER), byte_of(words[at + LAYOUT_NDC])};
}

captions_multi model_multi_read(const uint16_t *words, size_t len, captions_inner *inners)
{
    captions_inner read[CAPTIONS_INNERS] = {{0}};
    captions_multi answer = {.refusal = judge_outer(words, len)};
    size_t at = LAYOUT_INNERS, next = 0;

    while (answer.refusal.number == 0 && at < len - 1) {
        answer.refusal = judge_inner(words, at, len - 1, &next);
        if (answer.refusal.number == 0)
            read[answer.n++] = inner_at(words, at);
        at = next;
    }
    if (answer.refusal.number == 0 && !model_cs_is_right(words + 3, len - 4, words[len - 1]))
        answer.refusal = at_word(12, len - 1);
    if (answer.refusal.number != 0)
        return (captions_multi){.refusal = answer.refusal};
    answer.priority = byte_of(words[LAYOUT_USER]);
    memcpy(inners, read, sizeof read);
    return answer;
}

/* ---- Writing ---- */

/* A writer's refusal has no place. */
static captions_written refused(uint8_t number)
{
    return (captions_written){.refusal = {number, 0}};
}

static uint8_t judge_value(const captions_inner *inner, const uint16_t *words, size_t len)
{
    if (inner->line > 31 || inner->field > 1 || inner->did > 255 || inner->sdid > 255)
        return 15;
    if ((size_t)inner->at + inner->count > len)
        return 15;
    for (size_t i = 0; i < inner->count; i++)
        if (!model_word_is_right(words[inner->at + i]))
            return 11;
    return is_subtitling(inner->did, inner->sdid) ? judge_subtitles(words + inner->at, inner->count).number : 0;
}

captions_written model_multi_write(uint32_t priority, const captions_inner *inners, size_t n, const uint16_t *words, size_t len,
                                   uint16_t *out, size_t room)
{
    static multi_value value;
    uint16_t made[CAPTIONS_MULTI_WORDS];
    size_t made_len;

    if (priority > 255)
        return refused(15);
    if (n == 0)
        return refused(26);
    for (size_t i = 0; i < n; i++) {
        uint8_t number = judge_value(&inners[i], words, len);
        if (number != 0)
            return refused(number);
    }
    value.priority = priority;
    value.n = n;
    memcpy(value.inners, inners, n * sizeof *inners);
    if (layout_multi_user(&value) > LAYOUT_MULTI_USER)
        return refused(13);
    memcpy(value.words, words, len * sizeof *words);
    made_len = layout_multi(&value, made);
    if (made_len > room)
        return refused(14);
    memcpy(out, made, made_len * sizeof *out);
    return (captions_written){.len = made_len};
}
