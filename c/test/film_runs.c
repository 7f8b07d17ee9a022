/* film_runs.c: see film_runs.h. */
#include "film_runs.h"

#include <stdio.h>
#include <string.h>

/* What one call is lent: the state, the records of a picture, and room for two access units. */
static arena state_arena, records_arena, units_arena;

typedef struct film_loan {
    captions_film *state;
    captions_record *records;
    size_t records_size; /* 0 for a closing */
    uint8_t *units;
} film_loan;

void film_open(void)
{
    arena_open(&state_arena, sizeof(captions_film));
    arena_open(&records_arena, CAPTIONS_RECORDS * sizeof(captions_record));
    arena_open(&units_arena, FILM_BYTES);
}

bool film_arenas_are_whole(void)
{
    return arena_is_whole(&state_arena) && arena_is_whole(&records_arena) && arena_is_whole(&units_arena);
}

/* ---- Parts of an outcome ---- */

captions_film film_before(const question *q, const outcome *o, size_t i)
{
    static const captions_film start;

    if (q->film.calls[i].puts_state)
        return q->film.calls[i].state;
    return i == 0 ? start : o->states[i - 1];
}

bool film_accepted(const outcome *o, size_t i)
{
    return o->numbers[FILM_NUMBERS * i] == 0;
}

const uint8_t *film_output(const outcome *o, size_t i)
{
    return o->memory + FILM_BYTES * i;
}

captions_access_unit film_unit(const outcome *o, size_t i, size_t place)
{
    captions_access_unit unit;

    memcpy(&unit, film_output(o, i) + place * sizeof unit, sizeof unit);
    return unit;
}

bool film_is_bad(captions_film state)
{
    bool data = state.cc_data_1 != 0 || state.cc_data_2 != 0;

    return state.waiting > 1 || state.cc_valid > 1 || (state.waiting == 0 && state.cc_valid == 1) ||
           (state.cc_valid == 0 && data);
}

static bool same_state(captions_film a, captions_film b)
{
    return memcmp(&a, &b, sizeof a) == 0;
}

/* ---- Asking ---- */

static void fill_units(const question *q, uint8_t *units)
{
    for (size_t i = 0; i < FILM_BYTES; i++)
        units[i] = (uint8_t)(i * 37 + q->fill);
}

static void lend(const question *q, const film_call *call, captions_film state, film_loan *l)
{
    l->records_size = call->closes ? 0 : sizeof call->unit.records;
    l->state = (captions_film *)arena_lend(&state_arena, q->at, sizeof state);
    l->records = (captions_record *)arena_lend(&records_arena, q->at, l->records_size);
    l->units = arena_lend(&units_arena, q->at, FILM_BYTES);
    *l->state = state;
    memcpy(l->records, call->unit.records, l->records_size);
    fill_units(q, l->units);
}

static captions_film_sent make_call(const calls *who, const film_call *call, const film_loan *l)
{
    const unit_value *u = &call->unit;
    captions_access_unit *units = (captions_access_unit *)l->units;

    if (call->closes)
        return who->film_close(l->state, units);
    return who->film_picture(l->state, call->top_field_first, call->repeat_first_field, call->line_offset, u->reserved,
                             u->vbi_data_flag, u->n, u->z, l->records, units);
}

static bool spoil_byte(void *from, size_t size, size_t i)
{
    if (i >= size)
        return false;
    ((uint8_t *)from)[i] ^= 1;
    return true;
}

/* The byte beside a piece of so many bytes that can be touched. */
static void spoil_beside(side at, void *lent, size_t size)
{
    *((uint8_t *)lent + (at == AT_END ? (ptrdiff_t)-1 : (ptrdiff_t)size)) ^= 1;
}

static bool do_spoil(spoil spoiling, side at, const film_loan *l, captions_film_sent answer)
{
    switch (spoiling) {
    case SPOIL_BESIDE_OUTPUT:
        spoil_beside(at, l->units, FILM_BYTES);
        return true;
    case SPOIL_BEHIND_LENGTH: /* zeros, where the call was accepted */
        return spoil_byte(l->units, FILM_BYTES, answer.m * sizeof(captions_access_unit));
    case SPOIL_LAST:
        return spoil_byte(l->units, FILM_BYTES, FILM_BYTES - 1);
    case SPOIL_FIRST_INPUT: /* there is none */
        return false;
    case SPOIL_SECOND_INPUT:
        return spoil_byte(l->records, l->records_size, l->records_size / 2);
    case SPOIL_STATE:
        return spoil_byte(l->state, sizeof *l->state, answer.m % sizeof *l->state);
    case SPOIL_BESIDE_STATE:
        spoil_beside(at, l->state, sizeof *l->state);
        return true;
    default:
        return true;
    }
}

static const char *damage_of(const film_call *call, const film_loan *l)
{
    if (memcmp(l->records, call->unit.records, l->records_size) != 0)
        return "the records were changed";
    if (!arena_near_is_whole(&units_arena))
        return "bytes beside the output were changed";
    if (!arena_near_is_whole(&state_arena))
        return "bytes beside the state were changed";
    if (!arena_near_is_whole(&records_arena))
        return "bytes beside the records were changed";
    return NULL;
}

static void take_back(void)
{
    arena_take_back(&state_arena);
    arena_take_back(&records_arena);
    arena_take_back(&units_arena);
}

/* Call i, which begins with the state that the outcome has from the call before. */
static bool ask_one(const calls *who, const question *q, size_t i, spoil spoiling, outcome *got)
{
    const film_call *call = &q->film.calls[i];
    uint64_t *numbers = got->numbers + FILM_NUMBERS * i;
    captions_film_sent answer;
    const char *damage;
    film_loan l;
    bool spoilt;

    lend(q, call, film_before(q, got, i), &l);
    answer = make_call(who, call, &l);
    spoilt = do_spoil(spoiling, q->at, &l, answer);
    numbers[0] = answer.refusal.number;
    numbers[1] = answer.refusal.place;
    numbers[2] = answer.m;
    memcpy(got->memory + FILM_BYTES * i, l.units, FILM_BYTES);
    got->states[i] = *l.state;
    damage = damage_of(call, &l);
    if (got->damage == NULL)
        got->damage = damage;
    take_back();
    return spoilt;
}

bool film_ask(const calls *who, const question *q, spoil spoiling, outcome *got)
{
    bool spoilt = false;

    got->count = FILM_NUMBERS * q->film.count;
    got->size = FILM_BYTES * q->film.count;
    got->all_states = true;
    got->damage = NULL;
    for (size_t i = 0; i < q->film.count; i++)
        spoilt = ask_one(who, q, i, i + 1 == q->film.count ? spoiling : SPOIL_NOTHING, got);
    return spoilt;
}

void film_begin(const question *q, outcome *o)
{
    o->count = FILM_NUMBERS * q->film.count;
    memset(o->numbers, 0, sizeof o->numbers);
    o->size = FILM_BYTES * q->film.count;
    for (size_t i = 0; i < q->film.count; i++)
        fill_units(q, o->memory + FILM_BYTES * i);
    memset(o->states, 0, sizeof o->states);
    o->all_states = false;
    o->damage = NULL;
}

/* ---- Comparing ---- */

static const char *say(size_t i, const char *what)
{
    static char text[160];

    snprintf(text, sizeof text, "call %zu of the run (from 0): %s", i, what);
    return text;
}

/* What RULES says of a refusal: the place is 0, nothing is sent, and neither output nor state has changed. */
static const char *broken_by_refusal(const question *q, const outcome *got, size_t i)
{
    const uint64_t *numbers = got->numbers + FILM_NUMBERS * i;
    uint8_t pattern[FILM_BYTES];

    fill_units(q, pattern);
    if (numbers[0] > REFUSAL_MAX)
        return "a number that no refusal has";
    if (numbers[1] != 0 || numbers[2] != 0)
        return "a refusal that holds a place or a value";
    if (memcmp(film_output(got, i), pattern, FILM_BYTES) != 0)
        return "a refusal that stored to the output";
    if (!same_state(got->states[i], film_before(q, got, i)))
        return "a refusal that changed the state";
    return NULL;
}

/* What it says of an accepted call: two units at most, of padding 0, with zeros behind them; and a state that can be. */
static const char *broken_by_success(const outcome *got, size_t i)
{
    static const uint8_t zeros[FILM_BYTES];
    const uint64_t *numbers = got->numbers + FILM_NUMBERS * i;
    size_t sent = numbers[2] <= CAPTIONS_FILM_UNITS ? (size_t)numbers[2] * sizeof(captions_access_unit) : 0;

    if (numbers[1] != 0)
        return "an accepted answer with a place";
    if (numbers[2] > CAPTIONS_FILM_UNITS)
        return "more units than a call sends";
    if (memcmp(film_output(got, i) + sent, zeros, FILM_BYTES - sent) != 0)
        return "behind the last unit not all is zero";
    for (size_t place = 0; place < numbers[2]; place++)
        if (film_unit(got, i, place).padding != 0)
            return "a unit with a padding";
    if (film_is_bad(got->states[i]))
        return "a state that no call leaves";
    return NULL;
}

const char *film_difference(const question *q, const outcome *expected, const outcome *got)
{
    for (size_t i = 0; i < q->film.count; i++) {
        const char *broken = film_accepted(got, i) ? broken_by_success(got, i) : broken_by_refusal(q, got, i);
        bool known = expected->all_states || i + 1 == q->film.count;
        if (known && !same_state(expected->states[i], got->states[i]))
            return say(i, "another state");
        if (broken != NULL)
            return say(i, broken);
    }
    return NULL;
}
