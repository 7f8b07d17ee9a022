/* wrong_multi.c: stand-ins for the calls of multipackets. See wrong_calls.h. */
#include <string.h>

#include "wrong_calls.h"

/* ---- Words ---- */

static uint16_t copy[WORDS_MAX];

static bool is_formed(uint16_t cs)
{
    return cs <= 1023 && (cs >> 9 & 1) != (cs >> 8 & 1);
}

/* CS or NCS of a sum that is larger by `more`. What was wrong stays wrong. */
static uint16_t moved(uint16_t cs, unsigned more)
{
    unsigned sum = (cs + more) % 512;

    return is_formed(cs) ? (uint16_t)(sum | (sum < 0x100 ? 0x200 : 0)) : cs;
}

/* Puts another word in the place of one of an inner packet, so that each sum above it is as right or as wrong as it was. */
static void put_word(uint16_t *words, size_t len, size_t ncs, size_t at, uint16_t word)
{
    unsigned more = (unsigned)(word & 0x1FF) + 512 - (words[at] & 0x1FF);
    uint16_t before = words[ncs];

    words[at] = word;
    words[ncs] = moved(before, more);
    words[len - 1] = moved(words[len - 1], more + (words[ncs] & 0x1FF) + 512 - (before & 0x1FF));
}

/* The word at which the inner packet behind this one begins, and NCS before it; `end` where this one is not all there. */
static size_t next_inner(const uint16_t *words, size_t at, size_t end)
{
    size_t next = at + LAYOUT_NDC < end ? at + LAYOUT_INNER + (words[at + LAYOUT_NDC] & 0xFF) : end + 1;

    return next > end ? end : next;
}

static bool is_whole(const uint16_t *words, size_t at, size_t end)
{
    return at + LAYOUT_NDC < end && at + LAYOUT_INNER + (words[at + LAYOUT_NDC] & 0xFF) <= end;
}

/* Mends each whole inner packet of a copy, and has that read. */
typedef void (*mender)(uint16_t *words, size_t len, size_t at, size_t ncs);

static captions_multi read_mended(const uint16_t *words, size_t len, captions_inner *inners, mender mend)
{
    memcpy(copy, words, len * sizeof *words);
    for (size_t at = LAYOUT_INNERS, next; at + 1 < len; at = next) {
        next = next_inner(words, at, len - 1);
        if (is_whole(words, at, len - 1))
            mend(copy, len, at, next - 1);
    }
    return captions_multi_read(copy, len, inners);
}

/* ---- Reading: a check that is not made ---- */

static void mend_ncs(uint16_t *words, size_t len, size_t at, size_t ncs)
{
    uint16_t before = words[ncs];

    if (!is_formed(before))
        return;
    layout_ncs(words + at, ncs - at - LAYOUT_NUSER);
    words[len - 1] = moved(words[len - 1], (words[ncs] & 0x1FFu) + 512 - (before & 0x1FF));
}

static captions_multi ncs_passed(const uint16_t *words, size_t len, captions_inner *inners)
{
    return read_mended(words, len, inners, mend_ncs);
}

static captions_multi cs_passed(const uint16_t *words, size_t len, captions_inner *inners)
{
    memcpy(copy, words, len * sizeof *words);
    if (len > LAYOUT_INNERS && is_formed(words[len - 1]))
        layout_cs(copy, len);
    return captions_multi_read(copy, len, inners);
}

/* CS or NCS gets the right b8 where its byte is right. */
static void mend_b8(uint16_t *words, size_t len, size_t at, size_t ncs)
{
    uint16_t before = words[ncs];

    mend_ncs(words, len, at, ncs);
    if ((words[ncs] & 0xFF) == (before & 0xFF))
        return;
    words[len - 1] = moved(words[len - 1], (before & 0x1FFu) + 512 - (words[ncs] & 0x1FF));
    words[ncs] = before;
}

static captions_multi ncs_by_byte(const uint16_t *words, size_t len, captions_inner *inners)
{
    return read_mended(words, len, inners, mend_b8);
}

static captions_multi cs_by_byte(const uint16_t *words, size_t len, captions_inner *inners)
{
    memcpy(copy, words, len * sizeof *words);
    if (len > LAYOUT_INNERS && is_formed(words[len - 1]))
        layout_cs(copy, len);
    if (len > 0 && (copy[len - 1] & 0xFF) != (words[len - 1] & 0xFF))
        copy[len - 1] = words[len - 1];
    return captions_multi_read(copy, len, inners);
}

/* LINE/FIELD is not covered by NCS, but by CS. */
static void clear_bits(uint16_t *words, size_t len, size_t at, uint8_t bits)
{
    uint16_t word = words[at], cleared = layout_word((uint8_t)(word & ~bits));

    if (word != layout_word((uint8_t)word))
        return;
    words[at] = cleared;
    words[len - 1] = moved(words[len - 1], (cleared & 0x1FFu) + 512 - (word & 0x1FF));
}

static void clear_b6(uint16_t *words, size_t len, size_t at, size_t ncs)
{
    (void)ncs;
    clear_bits(words, len, at, 0x40);
}

static void clear_b7(uint16_t *words, size_t len, size_t at, size_t ncs)
{
    (void)ncs;
    clear_bits(words, len, at, 0x80);
}

static captions_multi b6_passed(const uint16_t *words, size_t len, captions_inner *inners)
{
    return read_mended(words, len, inners, clear_b6);
}

static captions_multi b7_passed(const uint16_t *words, size_t len, captions_inner *inners)
{
    return read_mended(words, len, inners, clear_b7);
}

/* What is judged is no subtitling packet any more. The head says that it is one. */
static void carry(uint16_t *words, size_t len, size_t at, size_t ncs)
{
    if (words[at + 1] == 0x143 && words[at + 2] == 0x102)
        put_word(words, len, ncs, at + 2, 0x203);
}

static captions_multi subtitles_carried(const uint16_t *words, size_t len, captions_inner *inners)
{
    captions_multi head = read_mended(words, len, inners, carry);

    for (size_t i = 0; i < head.n; i++)
        inners[i].sdid = words[inners[i].at - 2] & 0xFF;
    return head;
}

static void mend_parity(uint16_t *words, size_t len, size_t at, size_t ncs)
{
    for (size_t i = at + LAYOUT_NUSER; i < ncs; i++)
        put_word(words, len, ncs, i, layout_word((uint8_t)words[i]));
}

static captions_multi parity_passed(const uint16_t *words, size_t len, captions_inner *inners)
{
    return read_mended(words, len, inners, mend_parity);
}

/* Words behind the last whole inner packet are left out. */
static captions_multi rest_passed(const uint16_t *words, size_t len, captions_inner *inners)
{
    captions_multi head = captions_multi_read(words, len, inners);
    size_t at = head.refusal.place;

    if (head.refusal.number != CAPTIONS_NO_INNER || at == LAYOUT_INNERS || at + LAYOUT_NUSER < len - 1)
        return head;
    memcpy(copy, words, at * sizeof *words);
    copy[LAYOUT_DC] = layout_word((uint8_t)(at + 1 - 7));
    layout_cs(copy, at + 1);
    return captions_multi_read(copy, at + 1, inners);
}

/* ---- Reading: checks in another order ---- */

static captions_multi refused_with(captions_multi head, uint8_t number, size_t place)
{
    if (head.refusal.number != CAPTIONS_ACCEPTED)
        head.refusal = (captions_refusal){number, place};
    return head;
}

/* Whether what is refused is in an inner packet. */
static bool is_inner(captions_multi head, size_t len)
{
    return head.refusal.place >= LAYOUT_INNERS && head.refusal.place < len - 1 && head.refusal.number != CAPTIONS_TOO_LONG;
}

static bool cs_is_wrong(const uint16_t *words, size_t len)
{
    memcpy(copy, words, len * sizeof *words);
    layout_cs(copy, len);
    return copy[len - 1] != words[len - 1];
}

static captions_multi cs_first(const uint16_t *words, size_t len, captions_inner *inners)
{
    captions_multi head = captions_multi_read(words, len, inners);

    return is_inner(head, len) && cs_is_wrong(words, len) ? refused_with(head, CAPTIONS_CHECKSUM, len - 1) : head;
}

/* All words of a multipacket are judged before anything in it, as in a packet. */
static captions_multi words_first(const uint16_t *words, size_t len, captions_inner *inners)
{
    captions_multi head = captions_multi_read(words, len, inners);

    for (size_t i = LAYOUT_INNERS; is_inner(head, len) && i < len - 1; i = next_inner(words, i, len - 1))
        for (size_t j = i; is_whole(words, i, len - 1) && j + 1 < next_inner(words, i, len - 1); j++)
            if (words[j] != layout_word((uint8_t)words[j]))
                return refused_with(head, CAPTIONS_WORD, j);
    return head;
}

/* NDC's parity before its byte is used. */
static captions_multi ndc_first(const uint16_t *words, size_t len, captions_inner *inners)
{
    captions_multi head = captions_multi_read(words, len, inners);
    size_t ndc = head.refusal.place + LAYOUT_NDC;

    if (head.refusal.number == CAPTIONS_NO_INNER && ndc < len - 1 && words[ndc] != layout_word((uint8_t)words[ndc]))
        return refused_with(head, CAPTIONS_WORD, ndc);
    return head;
}

/* NCS before the rules over subtitles. */
static captions_multi ncs_first(const uint16_t *words, size_t len, captions_inner *inners)
{
    captions_multi head = captions_multi_read(words, len, inners);
    bool of_user = head.refusal.number != CAPTIONS_NO_INNER && head.refusal.number != CAPTIONS_WORD;

    for (size_t at = LAYOUT_INNERS, next; is_inner(head, len) && of_user && at < len - 1; at = next) {
        next = next_inner(words, at, len - 1);
        if (head.refusal.place <= at || head.refusal.place >= next)
            continue;
        memcpy(copy, words, len * sizeof *words);
        layout_ncs(copy + at, next - 1 - at - LAYOUT_NUSER);
        return copy[next - 1] != words[next - 1] ? refused_with(head, CAPTIONS_CHECKSUM, next - 1) : head;
    }
    return head;
}

/* An inner packet that takes CS for its NCS. */
static captions_multi cs_taken(const uint16_t *words, size_t len, captions_inner *inners)
{
    captions_multi head = captions_multi_read(words, len, inners);
    size_t at = head.refusal.place;

    if (head.refusal.number == CAPTIONS_NO_INNER && at + LAYOUT_NUSER < len &&
        at + LAYOUT_INNER + (words[at + LAYOUT_NDC] & 0xFF) == len)
        return refused_with(head, CAPTIONS_CHECKSUM, len - 1);
    return head;
}

/* ---- Reading: an answer that is changed ---- */

static captions_multi place_dropped(const uint16_t *words, size_t len, captions_inner *inners)
{
    captions_multi head = captions_multi_read(words, len, inners);

    head.refusal.place = 0;
    return head;
}

/* The place in the inner packet, as a packet by itself has it. */
static captions_multi place_inside(const uint16_t *words, size_t len, captions_inner *inners)
{
    captions_multi head = captions_multi_read(words, len, inners);

    for (size_t at = LAYOUT_INNERS, next; is_inner(head, len) && at < len - 1; at = next) {
        next = next_inner(words, at, len - 1);
        if (head.refusal.place < next) {
            head.refusal.place -= at;
            return head;
        }
    }
    return head;
}

static captions_multi overrun_at_ndc(const uint16_t *words, size_t len, captions_inner *inners)
{
    captions_multi head = captions_multi_read(words, len, inners);

    if (head.refusal.number == CAPTIONS_NO_INNER && head.refusal.place + LAYOUT_NDC < len - 1)
        head.refusal.place += LAYOUT_NDC;
    return head;
}

static captions_multi overrun_at_end(const uint16_t *words, size_t len, captions_inner *inners)
{
    captions_multi head = captions_multi_read(words, len, inners);

    return head.refusal.number == CAPTIONS_NO_INNER ? refused_with(head, CAPTIONS_NO_INNER, len - 1) : head;
}

/* 5 of subtitles at NDC. */
static captions_multi short_at_ndc(const uint16_t *words, size_t len, captions_inner *inners)
{
    captions_multi head = captions_multi_read(words, len, inners);

    if (head.refusal.number == CAPTIONS_ENDS && len > LAYOUT_INNERS)
        for (size_t at = LAYOUT_INNERS; at < head.refusal.place; at = next_inner(words, at, len - 1))
            if (next_inner(words, at, len - 1) > head.refusal.place)
                return refused_with(head, CAPTIONS_ENDS, at + LAYOUT_NDC);
    return head;
}

static captions_multi priority_dropped(const uint16_t *words, size_t len, captions_inner *inners)
{
    captions_multi head = captions_multi_read(words, len, inners);

    head.priority = 0;
    return head;
}

static captions_multi field_turned(const uint16_t *words, size_t len, captions_inner *inners)
{
    captions_multi head = captions_multi_read(words, len, inners);

    for (size_t i = 0; i < head.n; i++)
        inners[i].field ^= 1;
    return head;
}

static captions_multi at_ndc(const uint16_t *words, size_t len, captions_inner *inners)
{
    captions_multi head = captions_multi_read(words, len, inners);

    for (size_t i = 0; i < head.n; i++)
        inners[i].at--;
    return head;
}

/* Counted from the first user word of the multipacket. */
static captions_multi at_inside(const uint16_t *words, size_t len, captions_inner *inners)
{
    captions_multi head = captions_multi_read(words, len, inners);

    for (size_t i = 0; i < head.n; i++)
        inners[i].at -= LAYOUT_USER;
    return head;
}

/* Identifiers and count with their parity bits. */
static captions_multi parity_kept(const uint16_t *words, size_t len, captions_inner *inners)
{
    captions_multi head = captions_multi_read(words, len, inners);

    for (size_t i = 0; i < head.n; i++)
        inners[i].did = words[inners[i].at - 3];
    return head;
}

/* The 50th inner packet has no place. */
static captions_multi one_dropped(const uint16_t *words, size_t len, captions_inner *inners)
{
    captions_multi head = captions_multi_read(words, len, inners);

    if (head.n == CAPTIONS_INNERS)
        inners[--head.n] = (captions_inner){0};
    return head;
}

static captions_multi inners_touched(const uint16_t *words, size_t len, captions_inner *inners)
{
    captions_multi head = captions_multi_read(words, len, inners);

    if (head.refusal.number != CAPTIONS_ACCEPTED)
        inners[0].line ^= 1;
    return head;
}

/* Behind the n inner packets stays what was there. */
static captions_multi inners_left(const uint16_t *words, size_t len, captions_inner *inners)
{
    captions_inner before[CAPTIONS_INNERS];
    captions_multi head;

    memcpy(before, inners, sizeof before);
    head = captions_multi_read(words, len, inners);
    memcpy(inners + head.n, before + head.n, (CAPTIONS_INNERS - head.n) * sizeof *inners);
    return head;
}

#define READ(which, call) {.what = which, .op = MULTI_READ, .multi_read = call}

stand_in multi_read_stand_ins[MULTI_READ_STAND_INS] = {
    READ("NCS not judged", ncs_passed),
    READ("CS not judged", cs_passed),
    READ("NCS judged by its byte alone", ncs_by_byte),
    READ("CS judged by its byte alone", cs_by_byte),
    READ("b6 let through", b6_passed),
    READ("b7 let through", b7_passed),
    READ("subtitles carried", subtitles_carried),
    READ("parity of user words let through", parity_passed),
    READ("words behind the last inner packet let through", rest_passed),
    READ("CS before the inner packets", cs_first),
    READ("all words before the inner packets", words_first),
    READ("NDC's parity before its byte is used", ndc_first),
    READ("NCS before the user words", ncs_first),
    READ("CS taken for NCS", cs_taken),
    READ("no place", place_dropped),
    READ("the place in the inner packet", place_inside),
    READ("26 at NDC", overrun_at_ndc),
    READ("26 at the end", overrun_at_end),
    READ("5 of subtitles at NDC", short_at_ndc),
    READ("priority dropped", priority_dropped),
    READ("the field turned", field_turned),
    READ("at one word too early", at_ndc),
    READ("at counted among the user words", at_inside),
    READ("did with its parity bits", parity_kept),
    READ("49 inner packets at the most", one_dropped),
    READ("lent inner packets touched in a refusal", inners_touched),
    READ("lent inner packets beyond n left", inners_left),
};
