/* film_parse.c: see film_parse.h. */
#include "film_parse.h"

#include <string.h>

static bool take_text(cursor *c, const char *text)
{
    size_t len = strlen(text);

    if (strncmp(c->at, text, len) != 0)
        return false;
    c->at += len;
    return true;
}

static void need_text(cursor *c, const char *text)
{
    if (!take_text(c, text))
        c->bad = true;
}

static uint64_t number_before(cursor *c, uint64_t most, char sign)
{
    uint64_t value = take_number(c, most);

    need(c, sign);
    return value;
}

/* Two data bytes. */
static void take_pair(cursor *c, captions_film *to)
{
    uint8_t bytes[2] = {0, 0};

    if (take_bytes(c, bytes, 2) != 2)
        c->bad = true;
    to->cc_data_1 = bytes[0];
    to->cc_data_2 = bytes[1];
}

/* ---- Calls ---- */

static void take_state(cursor *c, captions_film *to)
{
    to->waiting = (uint8_t)number_before(c, 255, '.');
    to->cc_valid = (uint8_t)number_before(c, 255, '.');
    take_pair(c, to);
}

static void take_picture(cursor *c, film_call *to)
{
    unit_value *unit = &to->unit;
    size_t listed;

    to->top_field_first = (uint32_t)number_before(c, UINT32_MAX, '.');
    to->repeat_first_field = (uint32_t)number_before(c, UINT32_MAX, '.');
    to->line_offset = (uint32_t)number_before(c, UINT32_MAX, '/');
    unit->reserved = (uint32_t)number_before(c, UINT32_MAX, '.');
    unit->vbi_data_flag = (uint32_t)number_before(c, UINT32_MAX, '.');
    unit->n = number_before(c, SIZE_MAX, '.');
    unit->z = number_before(c, SIZE_MAX, '/');
    memset(unit->records, 0xFF, sizeof unit->records); /* places that the line does not give are not to be looked at */
    listed = c->bad ? 0 : take_record_list(c, unit->records);
    if (unit->n <= CAPTIONS_RECORDS && listed < unit->n)
        c->bad = true;
}

void take_film_calls(cursor *c, film_run *to)
{
    to->count = 0;
    do {
        film_call *call = &to->calls[to->count];
        if (to->count == FILM_CALLS_MAX) {
            c->bad = true;
            return;
        }
        memset(call, 0, sizeof *call);
        call->puts_state = take_text(c, "state.");
        if (call->puts_state) {
            take_state(c, &call->state);
            need(c, ';');
        }
        call->closes = take_text(c, "close");
        if (!call->closes)
            take_picture(c, call);
        to->count++;
    } while (!c->bad && take(c, ';'));
}

/* ---- Answers ---- */

/* `ok:UNITS`: zeros stand behind the last unit. */
static void take_sent(cursor *c, uint8_t *output, uint64_t *numbers)
{
    captions_access_unit units[CAPTIONS_FILM_UNITS];
    size_t m = take_unit_list(c, units, CAPTIONS_FILM_UNITS);

    if (m > CAPTIONS_FILM_UNITS || c->bad) {
        c->bad = true;
        return;
    }
    memset(output, 0, FILM_BYTES);
    memcpy(output, units, m * sizeof *units);
    numbers[2] = m;
}

/* `refused:N:P` */
static void take_refusal(cursor *c, uint64_t *numbers)
{
    numbers[0] = number_before(c, REFUSAL_MAX, ':');
    numbers[1] = take_number(c, SIZE_MAX);
    if (numbers[0] == 0)
        c->bad = true;
}

/* `-`, or `valid.HHHH` of the slot that waits. */
static void take_waiting(cursor *c, captions_film *to)
{
    if (take(c, '-'))
        return;
    to->waiting = 1;
    to->cc_valid = (uint8_t)number_before(c, 255, '.');
    take_pair(c, to);
}

void take_film_answers(cursor *c, const question *q, outcome *to)
{
    for (size_t i = 0; i < q->film.count && !c->bad; i++) {
        uint64_t *numbers = to->numbers + FILM_NUMBERS * i;
        if (i > 0)
            need(c, ';');
        if (take_text(c, "ok:"))
            take_sent(c, to->memory + FILM_BYTES * i, numbers);
        else if (take_text(c, "refused:"))
            take_refusal(c, numbers);
        else
            c->bad = true;
    }
    need_text(c, " waiting=");
    if (!c->bad)
        take_waiting(c, &to->states[q->film.count - 1]);
}
