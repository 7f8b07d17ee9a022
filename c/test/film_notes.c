/* film_notes.c: see film_notes.h. */
#include "film_notes.h"

#include <stdio.h>

#include "film_runs.h"
#include "model.h"

enum { FILM_LEAST = 20, FLAGS = 2, FIELDS_MAX = 3 };

/* What waits before a call. */
typedef enum waiting { NOTHING, INVALID, PAIR, WAITINGS } waiting;

static const char *const waiting_names[WAITINGS] = {"nothing waits", "an invalid slot waits", "a pair waits"};

/* What a call can be refused for, in the order of checks. */
typedef enum fault { STATE, FLAG, LINE, UNIT, NOT_SHOWN, OTHER_LINE, FAULTS } fault;

static const char *const fault_names[FAULTS] = {"state", "flag", "line", "unit", "field 3", "other line"};

/* Which way a state is bad; and which number is above its range. */
typedef enum wrong {
    MANY_WAIT,
    NO_FLAG,
    NOT_WAITING_VALID,
    NOT_WAITING_DATA,
    INVALID_DATA,
    TOP,
    REPEAT,
    SET_LINE,
    WRONGS
} wrong;

static const char *const wrong_names[WRONGS] = {
    "state: waiting above 1",
    "state: cc_valid above 1",
    "state: nothing waits, and is valid",
    "state: nothing waits, and has a data byte",
    "state: an invalid slot with a data byte",
    "top_field_first above 1",
    "repeat_first_field above 1",
    "line_offset above 31",
};

static struct {
    unsigned long pictures[WAITINGS][FLAGS][FLAGS]; /* accepted, by top_field_first and repeat_first_field */
    unsigned long closings[WAITINGS];
    unsigned long records[FIELDS_MAX + 1]; /* accepted pictures with so many */
    unsigned long refused[REFUSAL_MAX + 1]; /* where a slot waited, which went on waiting */
    unsigned long wrongs[WRONGS];
    unsigned long faults[FAULTS][FAULTS]; /* the first, and one that comes later in the order */
} met;

static waiting waiting_of(captions_film state)
{
    return state.waiting == 0 ? NOTHING : state.cc_valid == 0 ? INVALID : PAIR;
}

/* ---- Faults ---- */

static void note_state(captions_film state)
{
    bool data = state.cc_data_1 != 0 || state.cc_data_2 != 0;

    met.wrongs[MANY_WAIT] += state.waiting > 1;
    met.wrongs[NO_FLAG] += state.waiting == 1 && state.cc_valid > 1;
    met.wrongs[NOT_WAITING_VALID] += state.waiting == 0 && state.cc_valid == 1;
    met.wrongs[NOT_WAITING_DATA] += state.waiting == 0 && state.cc_valid == 0 && data;
    met.wrongs[INVALID_DATA] += state.waiting == 1 && state.cc_valid == 0 && data;
}

static bool has_field_3(const unit_value *unit)
{
    for (size_t i = 0; i < unit->n && i < CAPTIONS_RECORDS; i++)
        if (unit->records[i].field_number == 3)
            return true;
    return false;
}

static bool has_other_line(const unit_value *unit, uint32_t line)
{
    for (size_t i = 0; i < unit->n && i < CAPTIONS_RECORDS; i++)
        if (unit->records[i].line_offset != line)
            return true;
    return false;
}

/* Each fault by itself, whatever the others are. */
static void find_faults(const film_call *call, captions_film before, bool found[FAULTS])
{
    const unit_value *u = &call->unit;

    found[STATE] = film_is_bad(before);
    found[FLAG] = call->top_field_first > 1 || call->repeat_first_field > 1;
    found[LINE] = call->line_offset > 31;
    found[UNIT] = model_judge_value(u->reserved, u->vbi_data_flag, u->n, u->z, u->records) != 0;
    found[NOT_SHOWN] = call->repeat_first_field == 0 && has_field_3(u);
    found[OTHER_LINE] = has_other_line(u, call->line_offset);
}

static void note_faults(const film_call *call, captions_film before)
{
    bool found[FAULTS];
    int first = 0;

    find_faults(call, before, found);
    while (first < FAULTS && !found[first])
        first++;
    for (int later = first + 1; later < FAULTS; later++)
        met.faults[first][later] += found[later];
    met.wrongs[TOP] += call->top_field_first > 1;
    met.wrongs[REPEAT] += call->repeat_first_field > 1;
    met.wrongs[SET_LINE] += call->line_offset > 31;
}

/* ---- Noting ---- */

static void note_accepted(const film_call *call, waiting before)
{
    if (call->closes) {
        met.closings[before]++;
        return;
    }
    met.pictures[before][call->top_field_first][call->repeat_first_field]++;
    met.records[call->unit.n]++;
}

void note_film(const question *q, const outcome *by_model)
{
    for (size_t i = 0; i < q->film.count; i++) {
        const film_call *call = &q->film.calls[i];
        captions_film before = film_before(q, by_model, i);
        note_state(before);
        if (!call->closes)
            note_faults(call, before);
        if (film_accepted(by_model, i))
            note_accepted(call, waiting_of(before));
        else if (!film_is_bad(before) && before.waiting == 1)
            met.refused[by_model->numbers[FILM_NUMBERS * i]]++;
    }
}

/* ---- Telling ---- */

/* Calls `with` for each count, under its name. */
static void each_count(void (*with)(const char *, unsigned long))
{
    static const unsigned numbers[] = {7, 8, 9, 15, 21, 22};
    char name[96];

    for (int w = 0; w < WAITINGS; w++)
        for (int flags = 0; flags < FLAGS * FLAGS; flags++) {
            snprintf(name, sizeof name, "picture %d/%d, %s", flags / FLAGS, flags % FLAGS, waiting_names[w]);
            with(name, met.pictures[w][flags / FLAGS][flags % FLAGS]);
        }
    for (int n = 0; n <= FIELDS_MAX; n++) {
        snprintf(name, sizeof name, "picture of %d records", n);
        with(name, met.records[n]);
    }
    for (int w = 0; w < WAITINGS; w++) {
        snprintf(name, sizeof name, "closing, %s", waiting_names[w]);
        with(name, met.closings[w]);
    }
    for (size_t i = 0; i < sizeof numbers / sizeof *numbers; i++) {
        snprintf(name, sizeof name, "picture refused with %u, a slot waits", numbers[i]);
        with(name, met.refused[numbers[i]]);
    }
    for (int w = 0; w < WRONGS; w++)
        with(wrong_names[w], met.wrongs[w]);
    for (int first = 0; first < FAULTS; first++)
        for (int later = first + 1; later < FAULTS; later++) {
            snprintf(name, sizeof name, "two faults: %s, then %s", fault_names[first], fault_names[later]);
            with(name, met.faults[first][later]);
        }
}

static void print_count(const char *name, unsigned long count)
{
    printf("%-48s %8lu\n", name, count);
}

void print_film(void)
{
    printf("%-48s %8s\n", "film: top_field_first/repeat_first_field", "met");
    each_count(print_count);
}

static bool good;

static void need_count(const char *name, unsigned long count)
{
    if (count >= FILM_LEAST)
        return;
    printf("film: %s: met %lu times, fewer than %u\n", name, count, (unsigned)FILM_LEAST);
    good = false;
}

bool enough_film(void)
{
    good = true;
    each_count(need_count);
    return good;
}
