/* multi_value_notes.c: see multi_value_notes.h. */
#include "multi_value_notes.h"

#include <stdio.h>
#include <string.h>

#include "multi_faults.h"

/* What can be wrong in an inner packet that is written, in the order of checks. The first two have one number. */
typedef enum value_fault {
    RANGE,
    PART,
    WORD,
    USER, /* the first of the USER faults */
    VALUE_FAULTS = USER + USER_SUM - USER_SHORT + 1
} value_fault;

typedef enum meeting {
    WRITTEN_ONE,
    WRITTEN_49,
    WRITTEN_50,
    WRITTEN_254, /* user words */
    WRITTEN_255,
    TOTAL_256,
    TOTAL_8_BITS,
    TOTAL_16_BITS,
    INNERS_51,
    INNERS_8_BITS,
    PLACE_SHARED,
    PLACE_BEFORE,
    PLACE_BESIDE,
    PLACE_AT_END,
    PLACE_NOTHING,
    NO_WORDS,
    PRIORITY_ABOVE,
    PRIORITY_UPPER,
    LINE_ABOVE,
    FIELD_ABOVE,
    DID_ABOVE,
    SDID_ABOVE,
    IDS_UPPER,
    PART_BY_ONE,
    PART_16_BITS,
    PART_NOTHING,
    WORD_PARITY,
    WORD_ABOVE,
    SUBTITLES_LONG,
    NONE_AT_ALL,
    PRIORITY_AND_NONE, /* two faults */
    PRIORITY_AND_INNER,
    PRIORITY_AND_TOTAL,
    TOTAL_AND_ROOM,
    NONE_AND_ROOM,
    SHORT_BY_ONE,
    SHORT_BY_ALL,
    MEETINGS
} meeting;

static const char *const meeting_names[MEETINGS] = {
    "written: one inner packet",
    "written: 49 inner packets",
    "written: 50 inner packets",
    "written: 254 user words",
    "written: 255 user words",
    "written: 256 user words",
    "written: user words that 8 bits count as few",
    "written: user words that 16 bits count as few",
    "written: 51 inner packets",
    "written: inner packets that 8 bits count as few",
    "written: two inner packets with some of the same words",
    "written: user words before those of the inner packet before",
    "written: a wrong word among the lent ones, which is no user word",
    "written: user words up to the last lent word",
    "written: no user words, and their place behind the last lent word",
    "written: no lent word",
    "written: priority above 255",
    "written: priority legal but for upper bits",
    "written: line above 31",
    "written: field above 1",
    "written: did above 255",
    "written: sdid above 255",
    "written: 43, 02 but for upper bits",
    "written: user words that end one word too late",
    "written: user words that 16 bits let end among the lent ones",
    "written: no user words, and a place that is none",
    "written: a user word of wrong parity",
    "written: a user word above 1023",
    "written: a subtitling packet of more user words than a byte counts",
    "written: no inner packet",
    "two faults: priority, then no inner packet",
    "two faults: priority, then an inner packet",
    "two faults: priority, then too many user words",
    "two faults: too many user words, then too short a room",
    "two faults: no inner packet, then no room",
    "written: too short a room by one word",
    "written: no room",
};

static struct {
    unsigned long meetings[MEETINGS];
    unsigned long lines[2 * MULTI_LINES];
    unsigned long wrong[VALUE_FAULTS][POSITIONS];
    unsigned long in_one[VALUE_FAULTS][VALUE_FAULTS], in_two[VALUE_FAULTS][RANKS];
    unsigned long and_total[VALUE_FAULTS], and_room[VALUE_FAULTS];
} met;

/* ---- Finding ---- */

static bool in_range(const captions_inner *inner)
{
    return inner->line <= 31 && inner->field <= 1 && inner->did <= 255 && inner->sdid <= 255;
}

static size_t end_of(const captions_inner *inner)
{
    return (size_t)inner->at + inner->count;
}

/* Which user word is the first that is no byte's; how many there are where none is. */
static size_t first_wrong_word(const multi_value *v, const captions_inner *inner)
{
    const uint16_t *user = v->words + inner->at;
    size_t i = 0;

    while (i < inner->count && user[i] == layout_word((uint8_t)user[i]))
        i++;
    return i;
}

static bool find_faults(const multi_value *v, const captions_inner *inner, bool found[VALUE_FAULTS])
{
    bool user[INNER_FAULTS] = {false}, any;

    memset(found, 0, VALUE_FAULTS * sizeof *found);
    found[RANGE] = !in_range(inner);
    found[PART] = end_of(inner) > v->len;
    if (found[PART])
        return true;
    found[WORD] = first_wrong_word(v, inner) < inner->count;
    if (is_subtitling(inner))
        find_user_faults(v->words + inner->at, inner->count, user);
    any = found[RANGE] || found[WORD];
    for (int f = USER; f < VALUE_FAULTS; f++) {
        found[f] = user[USER_SHORT + f - USER];
        any = any || found[f];
    }
    return any;
}

/* ---- Noting ---- */

static bool has_junk(const multi_value *v)
{
    for (size_t i = 0; i < v->len; i++)
        if (v->words[i] != layout_word((uint8_t)v->words[i]))
            return true;
    return false;
}

static bool is_shared(const captions_inner *a, const captions_inner *b)
{
    return a->count > 0 && b->count > 0 && a->at < end_of(b) && b->at < end_of(a);
}

static void note_written(const multi_value *v, size_t total)
{
    met.meetings[WRITTEN_ONE] += v->n == 1;
    met.meetings[WRITTEN_49] += v->n == 49;
    met.meetings[WRITTEN_50] += v->n == 50;
    met.meetings[WRITTEN_254] += total == 254;
    met.meetings[WRITTEN_255] += total == 255;
    met.meetings[PLACE_BESIDE] += has_junk(v);
    met.meetings[NO_WORDS] += v->len == 0;
    for (size_t i = 0; i < v->n; i++) {
        const captions_inner *inner = &v->inners[i];
        met.lines[MULTI_LINES * inner->field + inner->line]++;
        met.meetings[PLACE_AT_END] += inner->count > 0 && end_of(inner) == v->len;
        met.meetings[PLACE_NOTHING] += inner->count == 0 && inner->at == v->len;
        met.meetings[PLACE_SHARED] += i > 0 && is_shared(inner, inner - 1);
        met.meetings[PLACE_BEFORE] += i > 0 && inner->count > 0 && end_of(inner) <= inner[-1].at;
    }
}

/* What is told by numbers alone, of the first inner packet that is wrong. */
static void note_numbers(const multi_value *v, const captions_inner *inner)
{
    bool inside = end_of(inner) <= v->len;
    size_t word = inside ? first_wrong_word(v, inner) : 0;

    met.meetings[LINE_ABOVE] += inner->line > 31;
    met.meetings[FIELD_ABOVE] += inner->field > 1;
    met.meetings[DID_ABOVE] += inner->did > 255;
    met.meetings[SDID_ABOVE] += inner->sdid > 255;
    met.meetings[IDS_UPPER] += !is_subtitling(inner) && inner->did % 256 == 0x43 && inner->sdid % 256 == 0x02;
    met.meetings[PART_BY_ONE] += end_of(inner) == v->len + 1;
    met.meetings[PART_16_BITS] += !inside && end_of(inner) % 65536 <= v->len;
    met.meetings[PART_NOTHING] += !inside && inner->count == 0;
    met.meetings[SUBTITLES_LONG] += inside && is_subtitling(inner) && inner->count > 255;
    if (inside && in_range(inner) && word < inner->count)
        met.meetings[v->words[inner->at + word] > 1023 ? WORD_ABOVE : WORD_PARITY]++;
}

static void note_wrong(const question *q, size_t k, size_t total)
{
    const multi_value *v = &q->multi;
    bool found[VALUE_FAULTS], later_found[VALUE_FAULTS];
    position where = position_of(k, v->n);
    int first = 0;

    find_faults(v, &v->inners[k], found);
    while (!found[first])
        first++;
    if (where != POSITIONS)
        met.wrong[first][where]++;
    for (int later = first + 1; later < VALUE_FAULTS; later++)
        met.in_one[first][later] += found[later];
    for (size_t i = k + 1; i < v->n; i++) {
        find_faults(v, &v->inners[i], later_found);
        for (int later = 0; later < VALUE_FAULTS; later++)
            met.in_two[first][rank_of(first, later)] += later_found[later];
    }
    met.and_total[first] += total > LAYOUT_MULTI_USER;
    met.and_room[first] += q->room < 7 + total;
    note_numbers(v, &v->inners[k]);
}

static void note_total(const question *q, size_t total)
{
    met.meetings[TOTAL_256] += total == 256;
    met.meetings[TOTAL_8_BITS] += total > 256 && total % 256 > 5;
    met.meetings[TOTAL_16_BITS] += total >= 65536 && total % 65536 <= LAYOUT_MULTI_USER;
    met.meetings[INNERS_51] += q->multi.n == 51;
    met.meetings[INNERS_8_BITS] += q->multi.n > 255 && q->multi.n % 256 <= CAPTIONS_INNERS;
    met.meetings[TOTAL_AND_ROOM] += q->room < 7 + total;
}

void note_multi_value(const question *q, const outcome *got)
{
    const multi_value *v = &q->multi;
    size_t total = layout_multi_user(v), k = 0;
    bool found[VALUE_FAULTS], above = v->priority > 255;

    while (k < v->n && !find_faults(v, &v->inners[k], found))
        k++;
    met.meetings[PRIORITY_ABOVE] += above;
    met.meetings[PRIORITY_UPPER] += above && k == v->n && v->n > 0 && total <= LAYOUT_MULTI_USER && q->room >= 7 + total;
    met.meetings[PRIORITY_AND_NONE] += above && v->n == 0;
    met.meetings[PRIORITY_AND_INNER] += above && k < v->n;
    met.meetings[PRIORITY_AND_TOTAL] += above && total > LAYOUT_MULTI_USER;
    met.meetings[NONE_AT_ALL] += got->numbers[0] == 26;
    met.meetings[NONE_AND_ROOM] += got->numbers[0] == 26 && q->room < 8;
    met.meetings[SHORT_BY_ONE] += got->numbers[0] == 14 && q->room + 1 == 7 + total;
    met.meetings[SHORT_BY_ALL] += got->numbers[0] == 14 && q->room == 0;
    if (got->numbers[0] == 0)
        note_written(v, total);
    else if (!above && k < v->n)
        note_wrong(q, k, total);
    else if (got->numbers[0] == 13)
        note_total(q, total);
}

/* ---- Telling ---- */

static const char *fault_name(int f)
{
    static const char *const names[USER] = {"number", "place of user words", "user word"};

    return f < USER ? names[f] : inner_fault_names[USER_SHORT + f - USER];
}

/* Whether both can be told of one inner packet. Where the user words are not there, nothing is told of them. */
static bool in_one(int first, int later)
{
    if (first >= later || first == PART)
        return false;
    return first < USER || can_be_in_one((inner_fault)(USER_SHORT + first - USER), (inner_fault)(USER_SHORT + later - USER));
}

void tell_multi_values(teller with)
{
    char name[96];

    tell_least(with, "written: each line of each field, at least", met.lines, 2 * MULTI_LINES);
    for (int f = 0; f < VALUE_FAULTS; f++) {
        for (int p = 0; p < POSITIONS; p++) {
            snprintf(name, sizeof name, "written: wrong %s, %s", fault_name(f), position_names[p]);
            with(name, met.wrong[f][p]);
        }
        snprintf(name, sizeof name, "written: two faults: %s, then too many user words", fault_name(f));
        with(name, met.and_total[f]);
        snprintf(name, sizeof name, "written: two faults: %s, then too short a room", fault_name(f));
        with(name, met.and_room[f]);
        for (int r = f == 0 ? NOT_BEFORE : BEFORE; r < (f + 1 == VALUE_FAULTS ? NOT_BEFORE : RANKS); r++) {
            snprintf(name, sizeof name, "written: two faults in two: %s, then %s", fault_name(f), rank_names[r]);
            with(name, met.in_two[f][r]);
        }
        for (int later = 0; later < VALUE_FAULTS; later++) {
            snprintf(name, sizeof name, "written: two faults in one: %s, then %s", fault_name(f), fault_name(later));
            if (in_one(f, later))
                with(name, met.in_one[f][later]);
        }
    }
    for (int i = 0; i < MEETINGS; i++)
        with(meeting_names[i], met.meetings[i]);
}
