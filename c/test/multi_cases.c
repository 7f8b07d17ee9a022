/* multi_cases.c: see multi_cases.h. Values to write are in multi_values.c. */
#include "multi_cases.h"

#include <string.h>

#include "multi_faults.h"
#include "multi_values.h"

/* A fault, and where it is to be. */
typedef struct fault_plan {
    bool outer;
    inner_fault inner;
    outer_fault around;
    size_t target; /* which inner packet */
} fault_plan;

/* Where the inner packets stand in q->words. */
typedef struct inner_map {
    size_t n;
    size_t starts[CAPTIONS_INNERS], counts[CAPTIONS_INNERS];
} inner_map;

/* ---- Laying out, and mending what depends on what was changed ---- */

static void lay_out(question *q, inner_map *map)
{
    size_t at = LAYOUT_INNERS;

    q->len = layout_multi(&q->multi, q->words);
    map->n = q->multi.n;
    for (size_t i = 0; i < map->n; i++) {
        map->starts[i] = at;
        map->counts[i] = q->multi.inners[i].count;
        at += LAYOUT_INNER + map->counts[i];
    }
}

static void mend_outer(question *q)
{
    q->words[LAYOUT_DC] = layout_word((uint8_t)(q->len - 7));
    layout_cs(q->words, q->len);
}

static void mend_all(question *q, const inner_map *map)
{
    for (size_t i = 0; i < map->n; i++)
        layout_ncs(q->words + map->starts[i], map->counts[i]);
    mend_outer(q);
}

/* ---- Faults of the words ---- */

/* CS or NCS with another sum, b9 and b8 still each other's inverse. Often its byte is right, and b8 is not. */
static uint16_t other_sum(dice *d, uint16_t cs)
{
    unsigned sum = (cs + (chance(d, 30) ? 256 : chance(d, 50) ? 1 : 1 + below(d, 511))) % 512;

    return (uint16_t)(sum | (sum < 0x100 ? 0x200 : 0));
}

/* b9 as b8, or a bit above them. Nine bits stay. */
static uint16_t wrong_form(dice *d, uint16_t cs)
{
    return cs ^ (uint16_t)(chance(d, 70) ? 0x200 : 0x400u << below(d, 6));
}

/* Words between the last inner packet and CS. Up to four are too few for an inner packet. */
static void add_rest(dice *d, question *q, size_t count)
{
    uint16_t cs = q->words[q->len - 1];

    for (size_t i = 0; i < count; i++)
        q->words[q->len - 1 + i] = chance(d, 90) ? layout_word(any_byte(d)) : (uint16_t)roll(d);
    q->len += count;
    q->words[q->len - 1] = cs;
}

static void spoil_inner(dice *d, question *q, const inner_map *map, const fault_plan *plan)
{
    size_t target = plan->target % map->n, count = map->counts[target], left = q->len - 1 - map->starts[target];
    uint16_t *inner = q->words + map->starts[target], *word = inner + below(d, LAYOUT_NUSER + count);

    switch (plan->inner) {
    case INNER_CUT:
        add_rest(d, q, 1 + below(d, 3));
        break;
    case INNER_OVERRUN: /* by one word, by some, or by NDC's largest */
        if (chance(d, 15))
            add_rest(d, q, 4);
        else
            inner[LAYOUT_NDC] = layout_word((uint8_t)(left - LAYOUT_INNER + 1 + (chance(d, 60) ? 0 : below(d, 256 - left))));
        if (chance(d, 10)) /* NDC's byte counts before its parity does */
            inner[LAYOUT_NDC] = wrong_word(d, inner[LAYOUT_NDC]);
        break;
    case INNER_WORD:
        if (chance(d, 20))
            word = inner + LAYOUT_NDC;
        *word = wrong_word(d, *word);
        break;
    case INNER_NCS_FORM:
        inner[LAYOUT_NUSER + count] = wrong_form(d, inner[LAYOUT_NUSER + count]);
        break;
    case INNER_BITS:
        inner[0] = layout_word((uint8_t)(inner[0] | (const uint8_t[]){0x40, 0x80, 0xC0}[below(d, 3)]));
        break;
    case INNER_NCS:
        inner[LAYOUT_NUSER + count] = other_sum(d, inner[LAYOUT_NUSER + count]);
        break;
    default:
        break;
    }
}

static void spoil_outer(dice *d, question *q, outer_fault fault)
{
    static const size_t long_lengths[] = {263, 263, 264, 300, 512 + 20, WORDS_MAX};
    uint16_t *word;

    switch (fault) {
    case OUTER_LONG:
        if (q->len <= CAPTIONS_MULTI_WORDS)
            add_rest(d, q, long_lengths[below(d, sizeof long_lengths / sizeof *long_lengths)] - q->len);
        break;
    case OUTER_SHORT:
        q->len = below(d, LAYOUT_INNERS + 1);
        break;
    case OUTER_FLAG:
        q->words[below(d, 3)] ^= (uint16_t)(1u << below(d, 16));
        break;
    case OUTER_WORD:
        word = &q->words[3 + below(d, 4)];
        *word = wrong_word(d, *word);
        break;
    case OUTER_CS_FORM:
        q->words[q->len - 1] = wrong_form(d, q->words[q->len - 1]);
        break;
    case OUTER_ID:
        word = &q->words[3 + below(d, 2)];
        *word = layout_word((uint8_t)(*word ^ (chance(d, 50) ? 1u << below(d, 8) : 1 + below(d, 255))));
        break;
    case OUTER_DC:
        q->words[LAYOUT_DC] = layout_word((uint8_t)(q->words[LAYOUT_DC] + (chance(d, 50) ? 1 : 1 + below(d, 255))));
        break;
    case OUTER_CS:
        q->words[q->len - 1] = other_sum(d, q->words[q->len - 1]);
        break;
    default:
        break;
    }
}

/* Those of the plans that are `fault`. */
static void spoil_inners(dice *d, question *q, const inner_map *map, const fault_plan *plans, size_t count, inner_fault fault)
{
    for (size_t i = 0; i < count && map->n > 0; i++)
        if (!plans[i].outer && plans[i].inner == fault)
            spoil_inner(d, q, map, &plans[i]);
}

static void spoil_around(dice *d, question *q, const fault_plan *plans, size_t count, outer_fault fault)
{
    for (size_t i = 0; i < count; i++)
        if (plans[i].outer && plans[i].around == fault)
            spoil_outer(d, q, fault);
}

/*
 * Up to two faults, each of which is to stand by itself. So those that move words or change bytes come first, and behind them
 * the sums are mended before they are spoilt.
 */
static void spoil_words(dice *d, question *q, const inner_map *map, const fault_plan *plans, size_t count)
{
    static const inner_fault words[] = {INNER_BITS, INNER_CUT, INNER_OVERRUN, INNER_WORD}, sums[] = {INNER_NCS_FORM, INNER_NCS};
    static const outer_fault fixed[] = {OUTER_WORD, OUTER_ID, OUTER_FLAG, OUTER_DC},
                             last[] = {OUTER_CS, OUTER_CS_FORM, OUTER_LONG, OUTER_SHORT};

    for (size_t f = 0; f < sizeof words / sizeof *words; f++)
        spoil_inners(d, q, map, plans, count, words[f]);
    mend_all(q, map);
    for (size_t f = 0; f < sizeof sums / sizeof *sums; f++)
        spoil_inners(d, q, map, plans, count, sums[f]);
    mend_outer(q);
    for (size_t f = 0; f < sizeof fixed / sizeof *fixed; f++)
        spoil_around(d, q, plans, count, fixed[f]);
    layout_cs(q->words, q->len);
    for (size_t f = 0; f < sizeof last / sizeof *last; f++)
        spoil_around(d, q, plans, count, last[f]);
}

/* ---- Plans ---- */

static inner_fault some_inner_fault(dice *d)
{
    return (inner_fault)below(d, INNER_FAULTS);
}

/* Any but OUTER_INNER; the length seldom, since all that is behind it counts no more. */
static outer_fault some_outer_fault(dice *d)
{
    static const outer_fault often[] = {OUTER_FLAG,    OUTER_FLAG, OUTER_WORD, OUTER_WORD, OUTER_CS_FORM, OUTER_CS_FORM, OUTER_ID,
                                        OUTER_ID,      OUTER_DC,   OUTER_DC,   OUTER_NONE, OUTER_NONE,    OUTER_CS,      OUTER_CS,
                                        OUTER_CS,      OUTER_CS,   OUTER_LONG, OUTER_SHORT, OUTER_SHORT};

    return often[below(d, sizeof often / sizeof *often)];
}

static fault_plan some_plan(dice *d, size_t target, unsigned outer)
{
    return (fault_plan){chance(d, outer), some_inner_fault(d), some_outer_fault(d), target};
}

/* What is wrong in the value already. The SDP checksum comes last, since it is mended behind all others. */
static void spoil_told(dice *d, multi_value *value, const fault_plan *plans, size_t count)
{
    for (size_t i = 0; i < 2 * count; i++) {
        const fault_plan *plan = &plans[i % count];
        captions_inner *inner = &value->inners[plan->target % value->n];
        if (!plan->outer && is_user_fault(plan->inner) && (plan->inner == USER_SUM) == (i >= count))
            spoil_user(d, plan->inner, value->words + inner->at, &inner->count);
    }
}

static bool has_none(const fault_plan *plans, size_t count)
{
    for (size_t i = 0; i < count; i++)
        if (plans[i].outer && plans[i].around == OUTER_NONE)
            return true;
    return false;
}

static void planned_case(dice *d, question *q)
{
    fault_plan plans[2];
    size_t count = 1 + chance(d, 75), target = below(d, q->multi.n);
    inner_map map;

    plans[0] = some_plan(d, target, 25);
    plans[1] = some_plan(d, chance(d, 40) ? target : target + 1 + below(d, 4), plans[0].outer ? 60 : 15);
    for (size_t i = 0; i < count; i++)
        if (!plans[i].outer && is_user_fault(plans[i].inner))
            give_subtitles(d, &q->multi, plans[i].target % q->multi.n, plans[i].inner);
    spoil_told(d, &q->multi, plans, count);
    fit(&q->multi, LAYOUT_MULTI_USER - 4); /* room for some words behind the last inner packet */
    if (has_none(plans, count))
        q->multi.n = 0;
    lay_out(q, &map);
    spoil_words(d, q, &map, plans, count);
}

/* ---- Other cases ---- */

/* By its NDC an inner packet ends one word before CS, at it, or one word behind: what follows it becomes its user words. */
static void boundary_case(dice *d, question *q)
{
    inner_map map;
    size_t target, left, count;

    lay_out(q, &map);
    target = chance(d, 50) ? map.n - 1 : below(d, map.n);
    left = q->len - 1 - map.starts[target];
    count = left - LAYOUT_INNER + 1 - below(d, left == LAYOUT_INNER ? 2 : 3);
    q->words[map.starts[target] + 2] = layout_word(0x03); /* no subtitling packet */
    q->words[map.starts[target] + LAYOUT_NDC] = layout_word((uint8_t)count);
    if (LAYOUT_INNER + count <= left) {
        for (size_t i = 0; i < count; i++) {
            uint16_t *word = &q->words[map.starts[target] + LAYOUT_NUSER + i];
            *word = layout_word((uint8_t)*word);
        }
        map.n = target + 1;
        map.counts[target] = count;
    }
    mend_all(q, &map);
}

/* Right in all but its length: so many inner packets that there are 256 user words or some more. */
static void long_case(dice *d, question *q)
{
    multi_value *value = &q->multi;

    while (layout_multi_user(value) <= LAYOUT_MULTI_USER)
        value->inners[value->n++] = (captions_inner){.line = (uint16_t)below(d, 32), .did = 0x50, .sdid = 0x01};
    q->len = layout_multi(value, q->words);
}

/* A change that knows nothing of inner packets, behind which sums are mended in most cases. */
static void mutated_case(dice *d, question *q)
{
    inner_map map;
    size_t at;

    lay_out(q, &map);
    at = below(d, q->len);
    switch (below(d, 6)) {
    case 0:
        q->words[at] ^= (uint16_t)(1u << below(d, 16));
        break;
    case 1:
        q->words[at] = (uint16_t)roll(d);
        break;
    case 2: /* a word taken out: all that follows is out of step */
        memmove(q->words + at, q->words + at + 1, (q->len - at - 1) * sizeof *q->words);
        q->len--;
        break;
    case 3: /* or one put in */
        memmove(q->words + at + 1, q->words + at, (q->len - at) * sizeof *q->words);
        q->words[at] = layout_word(any_byte(d));
        q->len++;
        break;
    case 4:
        q->len = below(d, q->len + 1);
        break;
    default:
        q->words[at] = layout_word(any_byte(d));
        break;
    }
    if (q->len > LAYOUT_INNERS && chance(d, 70))
        mend_outer(q);
}

static void read_case(dice *d, question *q, bool legal)
{
    inner_map map;
    unsigned sort = (unsigned)below(d, 100);

    legal_multi(d, &q->multi);
    if (legal)
        lay_out(q, &map);
    else if (sort < 75)
        planned_case(d, q);
    else if (sort < 85)
        boundary_case(d, q);
    else if (sort < 88)
        long_case(d, q);
    else
        mutated_case(d, q);
}

void multi_case(dice *d, question *q, bool legal)
{
    if (q->op == MULTI_READ)
        read_case(d, q, legal);
    else
        multi_write_case(d, q, legal);
}
