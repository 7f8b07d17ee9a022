/* film_trips.c: see film_trips.h. */
#include "film_trips.h"

#include <string.h>

#include "film_runs.h"

static question back;
static outcome again;

/* ---- The slots of the pictures, one after the other (02, request 4) ---- */

typedef struct shown_slot {
    bool odd;
    uint8_t pair[3]; /* cc_valid and the two bytes */
} shown_slot;

/* The slots that pictures have shown and that have not left yet, in display order. A picture shows three at most. */
typedef struct row {
    size_t count;
    shown_slot slots[4];
} row;

static void show(row *r, bool odd, uint8_t valid, uint8_t data_1, uint8_t data_2)
{
    r->slots[r->count++] = (shown_slot){odd, {valid, data_1, data_2}};
}

/* The odd fields are the first and the third where the top field comes first, else the second. */
static void show_picture(row *r, const film_call *call)
{
    for (unsigned field = 1; field <= 2 + call->repeat_first_field; field++) {
        const captions_record *record = NULL;
        for (size_t i = 0; i < call->unit.n; i++)
            if (call->unit.records[i].field_number == field)
                record = &call->unit.records[i];
        if (record != NULL)
            show(r, (field != 2) == (call->top_field_first == 1), 1, record->cc_data_1, record->cc_data_2);
        else
            show(r, (field != 2) == (call->top_field_first == 1), 0, 0, 0);
    }
}

/* One side of a unit that was sent: the next slot of the row, or one that was filled in, which is all zero. */
static bool leaves(row *r, bool odd, uint8_t valid, uint8_t data_1, uint8_t data_2)
{
    shown_slot side = {odd, {valid, data_1, data_2}};

    if (r->count == 0 || r->slots[0].odd != odd)
        return valid == 0 && data_1 == 0 && data_2 == 0;
    if (memcmp(r->slots[0].pair, side.pair, sizeof side.pair) != 0)
        return false;
    r->count--;
    memmove(r->slots, r->slots + 1, r->count * sizeof *r->slots);
    return true;
}

static bool all_leave(row *r, const outcome *got, size_t i)
{
    for (size_t place = 0; place < got->numbers[FILM_NUMBERS * i + 2]; place++) {
        captions_access_unit u = film_unit(got, i, place);
        size_t before = r->count;
        if (!leaves(r, true, u.cc_valid_1, u.field1_data1, u.field1_data2) ||
            !leaves(r, false, u.cc_valid_2, u.field2_data1, u.field2_data2) || r->count == before)
            return false;
    }
    return true;
}

/* What has not left is what waits: one slot, and an odd one. */
static bool rest_waits(const row *r, captions_film state)
{
    uint8_t pair[3] = {state.cc_valid, state.cc_data_1, state.cc_data_2};

    if (r->count == 0)
        return state.waiting == 0;
    return r->count == 1 && r->slots[0].odd && state.waiting == 1 && memcmp(r->slots[0].pair, pair, sizeof pair) == 0;
}

static const char *slots_leave_once(const question *q, const outcome *got, unsigned long *made)
{
    row r = {0};

    ++*made;
    for (size_t i = 0; i < q->film.count; i++) {
        const film_call *call = &q->film.calls[i];
        captions_film state = call->state;
        if (call->puts_state)
            r.count = 0;
        if (call->puts_state && state.waiting == 1)
            show(&r, true, state.cc_valid, state.cc_data_1, state.cc_data_2);
        if (!film_accepted(got, i))
            continue;
        if (!call->closes)
            show_picture(&r, call);
        if (!all_leave(&r, got, i))
            return "a slot left that is not the next one, or on the other side, or with bytes beside it that no picture has";
        if (!rest_waits(&r, got->states[i]))
            return "what waits is not the slot that did not leave";
    }
    return NULL;
}

/* ---- Without the refused calls ---- */

/* The bytes that were put into the state before a call that is left out are put there before the next one. */
static size_t leave_out_refused(const question *q, const outcome *got, size_t kept[FILM_CALLS_MAX])
{
    const film_call *put = NULL;
    film_run *run = &back.film;

    run->count = 0;
    for (size_t i = 0; i < q->film.count; i++) {
        const film_call *call = &q->film.calls[i];
        if (call->puts_state)
            put = call;
        if (!film_accepted(got, i))
            continue;
        run->calls[run->count] = *call;
        if (put != NULL) {
            run->calls[run->count].puts_state = true;
            run->calls[run->count].state = put->state;
        }
        put = NULL;
        kept[run->count++] = i;
    }
    return run->count;
}

static const char *refused_change_nothing(const question *q, const outcome *got, unsigned long *made)
{
    size_t kept[FILM_CALLS_MAX], count;

    back.op = FILM_RUN;
    back.fill = (uint16_t)(q->fill + 0x8080);
    back.at = q->at == AT_END ? AT_FRONT : AT_END;
    count = leave_out_refused(q, got, kept);
    if (count == 0)
        return NULL;
    ++*made;
    ask(&library_calls, &back, SPOIL_NOTHING, &again);
    for (size_t i = 0; i < count; i++) {
        const uint64_t *now = again.numbers + FILM_NUMBERS * i, *then = got->numbers + FILM_NUMBERS * kept[i];
        if (memcmp(now, then, FILM_NUMBERS * sizeof *now) != 0 ||
            memcmp(film_output(&again, i), film_output(got, kept[i]), FILM_BYTES) != 0 ||
            memcmp(&again.states[i], &got->states[kept[i]], sizeof *again.states) != 0)
            return "without the refused calls the others answer in another way";
    }
    return NULL;
}

/* ---- The units in a payload ---- */

static size_t units_sent(const question *q, const outcome *got, captions_access_unit *units)
{
    size_t m = 0;

    for (size_t i = 0; i < q->film.count; i++)
        for (size_t place = 0; place < got->numbers[FILM_NUMBERS * i + 2]; place++)
            units[m++] = film_unit(got, i, place);
    return m;
}

static const char *payload_carries(const question *q, const outcome *got, unsigned long *made)
{
    static payload_value sent;

    memset(&sent, 0, sizeof sent);
    sent.m = units_sent(q, got, sent.units);
    ++*made;
    back.op = PAYLOAD_WRITE;
    back.room = 1 + 5 * sent.m;
    back.payload = sent;
    ask(&library_calls, &back, SPOIL_NOTHING, &again);
    if (again.numbers[0] != 0)
        return "units that no payload carries";
    back.op = PAYLOAD_READ;
    back.len = again.numbers[2];
    memcpy(back.bytes, again.memory, back.len);
    ask(&library_calls, &back, SPOIL_NOTHING, &again);
    if (again.numbers[0] != 0 || again.numbers[3] != sent.m || memcmp(again.memory, sent.units, sizeof sent.units) != 0)
        return "units that a payload does not give back";
    return NULL;
}

const char *film_trip(const question *q, const outcome *got, unsigned long *made)
{
    const char *differs = slots_leave_once(q, got, made);

    if (differs == NULL)
        differs = refused_change_nothing(q, got, made);
    return differs != NULL ? differs : payload_carries(q, got, made);
}
