/* wrong_multi_write.c: stand-ins for captions_multi_write. See wrong_calls.h. */
#include <string.h>

#include "wrong_calls.h"

static captions_inner heads[MULTI_INNERS_MAX];
static uint16_t lent[2 * (size_t)UINT16_MAX];

typedef struct told {
    uint32_t priority;
    const captions_inner *inners;
    size_t n;
    const uint16_t *words;
    size_t len;
    uint16_t *out;
    size_t room;
} told;

#define TOLD uint32_t priority, const captions_inner *inners, size_t n, const uint16_t *words, size_t len, uint16_t *out, size_t room
#define AS_TOLD {priority, inners, n, words, len, out, room}

static captions_written write(const told *t)
{
    return captions_multi_write(t->priority, t->inners, t->n, t->words, t->len, t->out, t->room);
}

static void copy_heads(told *t)
{
    memcpy(heads, t->inners, t->n * sizeof *heads);
    t->inners = heads;
}

/* The lent words, and as many right ones behind them as a head can tell of. */
static void copy_words(told *t)
{
    static size_t used = sizeof lent / sizeof *lent;

    memcpy(lent, t->words, t->len * sizeof *lent);
    for (size_t i = t->len; i < used; i++)
        lent[i] = 0x200;
    used = t->len;
    t->words = lent;
}

static size_t user_words(const told *t)
{
    size_t count = 1;

    for (size_t i = 0; i < t->n; i++)
        count += LAYOUT_INNER + (size_t)t->inners[i].count;
    return count;
}

/* ---- Numbers that are narrowed, and words that are repaired ---- */

static captions_written priority_narrowed(TOLD)
{
    return captions_multi_write((uint8_t)priority, inners, n, words, len, out, room);
}

static captions_written n_narrowed(TOLD)
{
    return captions_multi_write(priority, inners, (uint8_t)n, words, len, out, room);
}

static captions_written line_narrowed(TOLD)
{
    told t = AS_TOLD;

    copy_heads(&t);
    for (size_t i = 0; i < n; i++)
        heads[i].line &= 31;
    return write(&t);
}

static captions_written field_narrowed(TOLD)
{
    told t = AS_TOLD;

    copy_heads(&t);
    for (size_t i = 0; i < n; i++)
        heads[i].field &= 1;
    return write(&t);
}

static captions_written did_narrowed(TOLD)
{
    told t = AS_TOLD;

    copy_heads(&t);
    for (size_t i = 0; i < n; i++)
        heads[i].did &= 0xFF;
    return write(&t);
}

static captions_written sdid_narrowed(TOLD)
{
    told t = AS_TOLD;

    copy_heads(&t);
    for (size_t i = 0; i < n; i++)
        heads[i].sdid &= 0xFF;
    return write(&t);
}

static captions_written parity_repaired(TOLD)
{
    told t = AS_TOLD;

    copy_words(&t);
    for (size_t i = 0; i < len; i++)
        lent[i] = words[i] > 1023 ? words[i] : layout_word((uint8_t)words[i]);
    return write(&t);
}

static captions_written upper_bits_cut(TOLD)
{
    told t = AS_TOLD;

    copy_words(&t);
    for (size_t i = 0; i < len; i++)
        lent[i] &= 1023;
    return write(&t);
}

/* ---- Checks that are not made ---- */

static captions_written part_passed(TOLD)
{
    told t = AS_TOLD;

    copy_words(&t);
    t.len = sizeof lent / sizeof *lent;
    return write(&t);
}

/* at + count with 16 bits. */
static captions_written part_narrowed(TOLD)
{
    told t = AS_TOLD;

    for (size_t i = 0; i < n; i++)
        if ((uint16_t)(inners[i].at + inners[i].count) > len)
            return write(&t);
    return part_passed(priority, inners, n, words, len, out, room);
}

/* A place of no words is not looked at. */
static captions_written empty_part_passed(TOLD)
{
    told t = AS_TOLD;

    copy_heads(&t);
    for (size_t i = 0; i < n; i++)
        if (heads[i].count == 0)
            heads[i].at = 0;
    return write(&t);
}

/* 0x203 in the place of 0x102 makes the words of 43, 02 carried ones. In what was written they are put back. */
static captions_written subtitles_carried(TOLD)
{
    told t = AS_TOLD;
    captions_written made;
    size_t at = LAYOUT_INNERS;

    copy_heads(&t);
    for (size_t i = 0; i < n; i++)
        if (inners[i].did == 0x43 && inners[i].sdid == 0x02)
            heads[i].sdid = 0x03;
    made = write(&t);
    for (size_t i = 0; made.len > 0 && i < n; i++) {
        out[at + 2] = layout_word((uint8_t)inners[i].sdid);
        layout_ncs(out + at, inners[i].count);
        at += LAYOUT_INNER + (size_t)inners[i].count;
    }
    if (made.len > 0)
        layout_cs(out, made.len);
    return made;
}

static captions_written none_written(TOLD)
{
    static const uint16_t head[] = {0x000, 0x3FF, 0x3FF, 0x143, 0x203, 0x101};

    if (n > 0 || priority > 255 || room < 8)
        return captions_multi_write(priority, inners, n, words, len, out, room);
    memcpy(out, head, sizeof head);
    out[LAYOUT_USER] = layout_word((uint8_t)priority);
    layout_cs(out, 8);
    return (captions_written){.len = 8};
}

/* ---- Checks in another order ---- */

static captions_written refused(uint8_t number)
{
    return (captions_written){.refusal = {number, 0}};
}

static captions_written none_first(TOLD)
{
    return n == 0 ? refused(CAPTIONS_NO_INNER) : captions_multi_write(priority, inners, n, words, len, out, room);
}

static captions_written length_first(TOLD)
{
    told t = AS_TOLD;

    return priority <= 255 && user_words(&t) > LAYOUT_MULTI_USER ? refused(CAPTIONS_LENGTH) : write(&t);
}

static captions_written room_first(TOLD)
{
    told t = AS_TOLD;

    return priority <= 255 && n > 0 && room < 7 + user_words(&t) ? refused(CAPTIONS_NO_ROOM) : write(&t);
}

/* The numbers of all inner packets before the words of any. */
static captions_written numbers_first(TOLD)
{
    for (size_t i = 0; i < n && priority <= 255; i++)
        if (inners[i].line > 31 || inners[i].field > 1 || inners[i].did > 255 || inners[i].sdid > 255)
            return refused(CAPTIONS_UNHOLDABLE);
    return captions_multi_write(priority, inners, n, words, len, out, room);
}

/* Too many user words are a number out of range. */
static captions_written length_as_number(TOLD)
{
    captions_written made = captions_multi_write(priority, inners, n, words, len, out, room);
    told t = AS_TOLD;

    if (made.refusal.number == CAPTIONS_LENGTH && user_words(&t) > LAYOUT_MULTI_USER)
        made.refusal.number = CAPTIONS_UNHOLDABLE;
    return made;
}

/* ---- What is written ---- */

/* Each inner packet that was written has something done to it, and CS is right again. */
typedef void (*changer)(uint16_t *inner, size_t count);

static captions_written changed(captions_written made, uint16_t *out, changer change)
{
    size_t at = LAYOUT_INNERS;

    while (made.len > 0 && at < made.len - 1) {
        size_t count = out[at + LAYOUT_NDC] & 0xFF;
        change(out + at, count);
        at += LAYOUT_INNER + count;
    }
    if (made.len > 0)
        layout_cs(out, made.len);
    return made;
}

static void turn_field(uint16_t *inner, size_t count)
{
    (void)count;
    inner[0] = layout_word((uint8_t)(inner[0] ^ 0x20));
}

static captions_written field_turned(TOLD)
{
    return changed(captions_multi_write(priority, inners, n, words, len, out, room), out, turn_field);
}

/* NCS from LINE/FIELD on. */
static void cover_line(uint16_t *inner, size_t count)
{
    unsigned sum = (inner[LAYOUT_NUSER + count] + inner[0]) % 512;

    inner[LAYOUT_NUSER + count] = (uint16_t)(sum | (sum < 0x100 ? 0x200 : 0));
}

static captions_written line_covered(TOLD)
{
    return changed(captions_multi_write(priority, inners, n, words, len, out, room), out, cover_line);
}

/* NCS as a word of a byte. */
static void cut_ncs(uint16_t *inner, size_t count)
{
    inner[LAYOUT_NUSER + count] = layout_word((uint8_t)inner[LAYOUT_NUSER + count]);
}

static captions_written ncs_of_eight_bits(TOLD)
{
    return changed(captions_multi_write(priority, inners, n, words, len, out, room), out, cut_ncs);
}

static captions_written last_first(TOLD)
{
    told t = AS_TOLD;

    copy_heads(&t);
    for (size_t i = 0; i < n; i++)
        heads[i] = inners[n - 1 - i];
    return write(&t);
}

/* The user words one behind the other, wherever they are said to be. */
static captions_written places_passed_over(TOLD)
{
    told t = AS_TOLD;
    size_t at = 0;

    copy_heads(&t);
    for (size_t i = 0; i < n; i++) {
        if (at + inners[i].count <= len)
            heads[i].at = (uint16_t)at;
        at += inners[i].count;
    }
    return write(&t);
}

static captions_written output_touched(TOLD)
{
    captions_written made = captions_multi_write(priority, inners, n, words, len, out, room);

    if (made.refusal.number != CAPTIONS_ACCEPTED && room > 0)
        out[0] ^= 1;
    return made;
}

static captions_written word_behind(TOLD)
{
    captions_written made = captions_multi_write(priority, inners, n, words, len, out, room);

    if (made.len > 0 && made.len < room)
        out[made.len] = 0;
    return made;
}

#define WRITE(which, call) {.what = which, .op = MULTI_WRITE, .multi_write = call}

stand_in multi_write_stand_ins[MULTI_WRITE_STAND_INS] = {
    WRITE("priority narrowed", priority_narrowed),
    WRITE("n narrowed", n_narrowed),
    WRITE("line narrowed", line_narrowed),
    WRITE("field narrowed", field_narrowed),
    WRITE("did narrowed", did_narrowed),
    WRITE("sdid narrowed", sdid_narrowed),
    WRITE("parity repaired", parity_repaired),
    WRITE("bits above 1023 cut", upper_bits_cut),
    WRITE("user words behind the lent ones", part_passed),
    WRITE("at + count narrowed", part_narrowed),
    WRITE("a place of no words passed over", empty_part_passed),
    WRITE("subtitles carried", subtitles_carried),
    WRITE("no inner packet written", none_written),
    WRITE("26 before the priority", none_first),
    WRITE("13 before an inner packet", length_first),
    WRITE("14 before an inner packet", room_first),
    WRITE("numbers before the words of one before", numbers_first),
    WRITE("15 for too many user words", length_as_number),
    WRITE("the field turned", field_turned),
    WRITE("LINE/FIELD under NCS", line_covered),
    WRITE("NCS of eight bits", ncs_of_eight_bits),
    WRITE("the last inner packet first", last_first),
    WRITE("places passed over", places_passed_over),
    WRITE("output touched in a refusal", output_touched),
    WRITE("a word behind the result touched", word_behind),
};
