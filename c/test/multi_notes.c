/* multi_notes.c: see multi_notes.h. What is written is in multi_value_notes.c. */
#include "multi_notes.h"

#include <stdio.h>
#include <string.h>

#include "multi_faults.h"
#include "multi_value_notes.h"

enum { MULTI_LEAST = 10 };

typedef enum meeting {
    READ_ONE,
    READ_49,
    READ_50,
    READ_261, /* words */
    READ_262,
    READ_263,
    READ_51, /* inner packets */
    READ_7,
    READ_8,
    CARRIED_WSS,
    CARRIED_MULTI,
    CARRIED_NEARLY,
    CARRIED_SUBTITLES,
    ENDS_BEFORE_FIRST, /* an inner packet that ends one word before CS: the first, and one behind it */
    ENDS_BEFORE_LATER,
    ENDS_BEHIND_FIRST, /* or one word behind the last user word */
    ENDS_BEHIND_LATER,
    REST_1,
    REST_2,
    REST_3,
    REST_4,
    OVERRUN_AND_NDC,
    NDC_PARITY,
    WORDS_12,
    WORDS_14,
    BITS_40,
    BITS_80,
    BITS_C0,
    NCS_ABOVE,
    NCS_B9,
    NCS_B8,
    CS_ABOVE,
    CS_B9,
    CS_B8,
    LONG_AND_OTHER,
    SHORT_AND_FLAG,
    MEETINGS
} meeting;

static const char *const meeting_names[MEETINGS] = {
    "read: one inner packet",
    "read: 49 inner packets",
    "read: 50 inner packets",
    "read: 261 words",
    "read: 262 words",
    "read: 263 words",
    "read: 51 inner packets, and nothing else wrong",
    "read: 7 words",
    "read: 8 words",
    "read: wide-screen signalling, carried",
    "read: a multipacket, carried",
    "read: one identifier of 43, 02, carried",
    "read: the user words of a subtitling packet, carried",
    "read: the first inner packet ends a word before CS",
    "read: a later inner packet ends a word before CS",
    "read: the first inner packet ends a word too late",
    "read: a later inner packet ends a word too late",
    "read: one word is left",
    "read: two words are left",
    "read: three words are left",
    "read: four words are left",
    "read: an overrun by an NDC of wrong parity",
    "read: an NDC of wrong parity alone",
    "read: a subtitling packet of 12 user words",
    "read: a subtitling packet of 14 user words",
    "read: b6",
    "read: b7",
    "read: b6 and b7",
    "read: NCS above 1023",
    "read: NCS with b9 as b8",
    "read: NCS with another b8, and its byte right",
    "read: CS above 1023",
    "read: CS with b9 as b8",
    "read: CS with another b8, and its byte right",
    "two faults: too long, then another",
    "two faults: too short, then flag",
};

const char *const position_names[POSITIONS] = {"in the first of several", "in one between", "in the last of several"};

static struct {
    unsigned long meetings[MEETINGS];
    unsigned long lines[2 * MULTI_LINES];           /* accepted, by field and line */
    unsigned long structures[CAPTIONS_SLOTS + 1];   /* of accepted subtitling packets */
    unsigned long wrong[INNER_FAULTS][POSITIONS];
    unsigned long in_one[INNER_FAULTS][INNER_FAULTS]; /* a fault, and one that comes later in the same inner packet */
    unsigned long in_two[INNER_FAULTS][RANKS];        /* and one of a later inner packet */
    unsigned long around[OUTER_FAULTS][OUTER_FAULTS];
} met;

const char *const rank_names[RANKS] = {"one that is checked before it", "the same or one that is checked behind it"};

rank rank_of(int first, int later)
{
    return later < first ? BEFORE : NOT_BEFORE;
}

position position_of(size_t k, size_t n)
{
    if (k == 0 && n > 1)
        return FIRST;
    return k > 0 && k + 1 == n ? LAST : k > 0 ? BETWEEN : POSITIONS;
}

/* ---- Accepted ---- */

static void note_carried(const question *q, const captions_inner *inner)
{
    bool found[INNER_FAULTS] = {false}, subtitles = inner->count >= LAYOUT_SUBTITLES;

    find_user_faults(q->words + inner->at, inner->count, found);
    for (int f = 0; f < INNER_FAULTS; f++)
        subtitles = subtitles && !found[f];
    met.meetings[CARRIED_WSS] += inner->did == 0x50 && inner->sdid == 0x01;
    met.meetings[CARRIED_MULTI] += inner->did == 0x43 && inner->sdid == 0x03;
    met.meetings[CARRIED_NEARLY] += inner->did == 0x43 || inner->sdid == 0x02;
    met.meetings[CARRIED_SUBTITLES] += subtitles;
}

static void note_read(const question *q, const outcome *got)
{
    captions_inner inners[CAPTIONS_INNERS];
    size_t n = got->numbers[3];

    memcpy(inners, got->memory, sizeof inners);
    met.meetings[READ_ONE] += n == 1;
    met.meetings[READ_49] += n == 49;
    met.meetings[READ_50] += n == 50;
    met.meetings[READ_261] += q->len == 261;
    met.meetings[READ_262] += q->len == 262;
    for (size_t i = 0; i < n; i++) {
        met.lines[MULTI_LINES * inners[i].field + inners[i].line]++;
        if (is_subtitling(&inners[i]))
            met.structures[(inners[i].count - LAYOUT_SUBTITLES) / LAYOUT_STRUCTURE]++;
        else
            note_carried(q, &inners[i]);
    }
}

/* ---- Refused ---- */

/* 26: how many words are left, and whether it is one too few. */
static void note_ends(const question *q, size_t at)
{
    size_t left = q->len - 1 - at, count;

    if (left == 0)
        return; /* no inner packet at all */
    if (left <= LAYOUT_NUSER)
        met.meetings[REST_1 + left - 1]++;
    if (left == 1) { /* all before it is one inner packet, or is not */
        size_t first = LAYOUT_INNERS + LAYOUT_INNER + (q->words[LAYOUT_INNERS + LAYOUT_NDC] & 0xFF);
        met.meetings[first == at ? ENDS_BEFORE_FIRST : ENDS_BEFORE_LATER]++;
    }
    if (left < LAYOUT_NUSER)
        return;
    count = q->words[at + LAYOUT_NDC] & 0xFF;
    if (LAYOUT_INNER + count == left + 1)
        met.meetings[at == LAYOUT_INNERS ? ENDS_BEHIND_FIRST : ENDS_BEHIND_LATER]++;
    met.meetings[OVERRUN_AND_NDC] += q->words[at + LAYOUT_NDC] != layout_word((uint8_t)count);
}

/* The words that are refused for themselves. */
static void note_word(const question *q, size_t at, size_t place)
{
    size_t ncs = at + LAYOUT_NUSER + (q->words[at + LAYOUT_NDC] & 0xFF);

    met.meetings[NDC_PARITY] += place == at + LAYOUT_NDC;
    if (place == ncs)
        met.meetings[q->words[ncs] > 1023 ? NCS_ABOVE : NCS_B9]++;
}

/* Whether CS, behind so many words, has the byte that it should have. */
static bool byte_is_right(const uint16_t *words, size_t count)
{
    unsigned sum = 0;

    for (size_t i = 0; i < count; i++)
        sum += words[i] & 0xFF;
    return sum % 256 == (words[count] & 0xFF);
}

/* The inner packet at word `at`, of n in all, is the k-th, and the first that is wrong. */
static void note_wrong_inner(const question *q, const outcome *got, size_t at, size_t k, size_t n)
{
    bool found[INNER_FAULTS], later_found[INNER_FAULTS];
    size_t next = find_inner_faults(q->words, at, q->len - 1, found), count = q->words[at + LAYOUT_NDC] & 0xFF;
    position where = position_of(k, n);
    int first = 0;

    while (first < INNER_FAULTS && !found[first])
        first++;
    if (first == INNER_FAULTS)
        return;
    if (where != POSITIONS)
        met.wrong[first][where]++;
    for (int later = first + 1; later < INNER_FAULTS; later++)
        met.in_one[first][later] += found[later];
    while (next < q->len - 1) {
        next = find_inner_faults(q->words, next, q->len - 1, later_found);
        for (int later = 0; later < INNER_FAULTS; later++)
            met.in_two[first][rank_of(first, later)] += later_found[later];
    }
    if (got->numbers[0] == 26)
        note_ends(q, at);
    if (got->numbers[0] == 11)
        note_word(q, at, got->numbers[1]);
    met.meetings[NCS_B8] += first == INNER_NCS && byte_is_right(q->words + at + 1, LAYOUT_NDC + count);
    met.meetings[WORDS_12] += first == USER_SHORT && count == 12;
    met.meetings[WORDS_14] += is_user_fault((inner_fault)first) && count == 14;
    if (first == INNER_BITS)
        met.meetings[BITS_40 + (q->words[at] >> 6 & 3) - 1]++;
}

/* Whether some inner packet is wrong, and if `noted`, what is wrong in the first such one. */
static bool walk(const question *q, const outcome *got, bool noted)
{
    size_t starts[CAPTIONS_MULTI_WORDS], n = 0, wrong = SIZE_MAX;

    for (size_t at = LAYOUT_INNERS; at < q->len - 1; n++) {
        bool found[INNER_FAULTS];
        starts[n] = at;
        at = find_inner_faults(q->words, at, q->len - 1, found);
        for (int f = 0; f < INNER_FAULTS; f++)
            if (found[f] && wrong == SIZE_MAX)
                wrong = n;
    }
    if (noted && wrong != SIZE_MAX)
        note_wrong_inner(q, got, starts[wrong], wrong, n);
    return wrong != SIZE_MAX;
}

/* How many inner packets there are where all are right; else 0. */
static size_t right_inners(const question *q)
{
    size_t n = 0;

    for (size_t at = LAYOUT_INNERS; at < q->len - 1; n++) {
        bool found[INNER_FAULTS];
        at = find_inner_faults(q->words, at, q->len - 1, found);
        for (int f = 0; f < INNER_FAULTS; f++)
            if (found[f])
                return 0;
    }
    return n;
}

static void note_refused(const question *q, const outcome *got)
{
    bool found[OUTER_FAULTS], inner_is_first = true;
    int first = 0;

    find_outer_faults(q->words, q->len, found);
    for (int f = 0; f < OUTER_INNER; f++)
        inner_is_first = inner_is_first && !found[f];
    if (!found[OUTER_SHORT] && !found[OUTER_LONG])
        found[OUTER_INNER] = walk(q, got, inner_is_first);
    while (first < OUTER_FAULTS && !found[first])
        first++;
    for (int later = first + 1; later < OUTER_FAULTS; later++) {
        met.around[first][later] += found[later];
        met.meetings[LONG_AND_OTHER] += first == OUTER_LONG && found[later];
        met.meetings[SHORT_AND_FLAG] += first == OUTER_SHORT && later == OUTER_FLAG && found[later];
    }
    met.meetings[READ_263] += q->len == 263;
    met.meetings[READ_51] += first == OUTER_LONG && right_inners(q) == 51;
    met.meetings[READ_7] += q->len == 7;
    met.meetings[READ_8] += first == OUTER_NONE;
    met.meetings[CS_B8] += first == OUTER_CS && byte_is_right(q->words + 3, q->len - 4);
    if (first == OUTER_CS_FORM)
        met.meetings[q->words[q->len - 1] > 1023 ? CS_ABOVE : CS_B9]++;
}

void note_multi(const question *q, const outcome *by_model)
{
    if (q->op == MULTI_WRITE)
        note_multi_value(q, by_model);
    else if (by_model->numbers[0] == 0)
        note_read(q, by_model);
    else
        note_refused(q, by_model);
}

/* ---- Telling ---- */

static void tell_faults(teller with)
{
    char name[96];

    for (int f = INNER_WORD; f < INNER_FAULTS; f++) { /* behind those before it, no other inner packet is found */
        for (int p = 0; p < POSITIONS; p++) {
            snprintf(name, sizeof name, "read: wrong %s, %s", inner_fault_names[f], position_names[p]);
            with(name, met.wrong[f][p]);
        }
        for (int r = 0; r < RANKS; r++) {
            snprintf(name, sizeof name, "read: two faults in two: %s, then %s", inner_fault_names[f], rank_names[r]);
            with(name, met.in_two[f][r]);
        }
    }
    for (int first = 0; first < INNER_FAULTS; first++)
        for (int later = 0; later < INNER_FAULTS; later++) {
            snprintf(name, sizeof name, "read: two faults in one: %s, then %s", inner_fault_names[first],
                     inner_fault_names[later]);
            if (can_be_in_one((inner_fault)first, (inner_fault)later))
                with(name, met.in_one[first][later]);
        }
    for (int first = OUTER_FLAG; first < OUTER_FAULTS; first++)
        for (int later = first + 1; later < OUTER_FAULTS; later++) {
            if (first == OUTER_NONE && later == OUTER_INNER)
                continue; /* never both */
            snprintf(name, sizeof name, "read: two faults: %s, then %s", outer_fault_names[first], outer_fault_names[later]);
            with(name, met.around[first][later]);
        }
}

/* Calls `with` for each count, under its name. */
static void each_count(teller with)
{
    tell_least(with, "read: each line of each field, at least", met.lines, 2 * MULTI_LINES);
    tell_least(with, "read: each number of structures, at least", met.structures, CAPTIONS_SLOTS + 1);
    tell_faults(with);
    for (int i = 0; i < MEETINGS; i++)
        with(meeting_names[i], met.meetings[i]);
    tell_multi_values(with);
}

static void print_count(const char *name, unsigned long count)
{
    printf("%-76s %8lu\n", name, count);
}

void print_multi(void)
{
    printf("%-76s %8s\n", "multipackets", "met");
    each_count(print_count);
}

static bool good;

static void need_count(const char *name, unsigned long count)
{
    if (count >= MULTI_LEAST)
        return;
    printf("multipackets: %s: met %lu times, fewer than %u\n", name, count, (unsigned)MULTI_LEAST);
    good = false;
}

bool enough_multi(void)
{
    good = true;
    each_count(need_count);
    return good;
}
