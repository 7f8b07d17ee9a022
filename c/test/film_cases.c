/* film_cases.c: see film_cases.h. */
#include "film_cases.h"

#include <string.h>

#include "film_runs.h"
#include "mutate.h"

/* ---- Legal calls ---- */

static captions_record some_record(dice *d, uint8_t field, uint32_t line)
{
    bool zero = chance(d, 20); /* a pair of two zeros is valid all the same */

    return (captions_record){(uint8_t)below(d, 4), field, (uint8_t)line, zero ? 0 : any_byte(d), zero ? 0 : any_byte(d)};
}

/* Each display field that is shown has its record, or none. Places beyond n hold anything. */
static void show_fields(dice *d, film_call *call)
{
    unit_value *unit = &call->unit;
    unsigned often = chance(d, 40) ? 100 : 60;

    legal_unit(d, unit);
    unit->n = 0;
    for (uint8_t field = 1; unit->vbi_data_flag == 1 && field <= 2 + call->repeat_first_field; field++)
        if (chance(d, often))
            unit->records[unit->n++] = some_record(d, field, call->line_offset);
    if (chance(d, 5))
        unit->z = CAPTIONS_AREA_BYTES - below(d, 2); /* no length is judged here */
}

static void legal_picture(dice *d, film_call *call)
{
    static const uint32_t telling[] = {0, 11, 31};

    call->top_field_first = (uint32_t)below(d, 2);
    call->repeat_first_field = (uint32_t)below(d, 2);
    call->line_offset = chance(d, 30) ? telling[below(d, 3)] : (uint32_t)below(d, 32);
    show_fields(d, call);
}

/* ---- States ---- */

static void put_state(film_call *call, captions_film state)
{
    call->puts_state = true;
    call->state = state;
}

/* Nothing, an invalid slot that waits, or a pair. */
static void put_legal_state(dice *d, film_call *call)
{
    captions_film pair = {1, 1, any_byte(d), any_byte(d)}, invalid = {1, 0, 0, 0}, nothing = {0, 0, 0, 0};

    put_state(call, chance(d, 30) ? nothing : chance(d, 30) ? invalid : pair);
}

static void put_bad_state(dice *d, film_call *call)
{
    uint8_t byte = (uint8_t)(1 + below(d, 255)), many = (uint8_t)(2 + below(d, 254)), two = chance(d, 50) ? 2 : many;

    switch (below(d, 7)) {
    case 0:
        put_state(call, (captions_film){two, 1, any_byte(d), any_byte(d)});
        break;
    case 1:
        put_state(call, (captions_film){two, 0, 0, 0});
        break;
    case 2:
        put_state(call, (captions_film){1, two, any_byte(d), any_byte(d)});
        break;
    case 3:
        put_state(call, (captions_film){0, chance(d, 50) ? 1 : many, 0, 0});
        break;
    case 4: /* nothing waits, and a byte of data */
        put_state(call, (captions_film){0, 0, chance(d, 50) ? byte : 0, 0});
        call->state.cc_data_2 = call->state.cc_data_1 == 0 ? byte : 0;
        break;
    case 5: /* an invalid slot with one */
        put_state(call, (captions_film){1, 0, chance(d, 50) ? byte : 0, 0});
        call->state.cc_data_2 = call->state.cc_data_1 == 0 ? byte : 0;
        break;
    default:
        put_state(call, (captions_film){any_byte(d), any_byte(d), any_byte(d), any_byte(d)});
        break;
    }
}

/* ---- Faults of a picture. Some leave it legal: the model decides. ---- */

/* One record more behind the others. */
static void add_record(unit_value *unit, captions_record record)
{
    if (unit->n < CAPTIONS_RECORDS)
        unit->records[unit->n++] = record;
}

/* Field 3 in a picture that shows two, where there is one yet. */
static void hide_third(dice *d, film_call *call)
{
    unit_value *unit = &call->unit;

    call->repeat_first_field = 0;
    unit->vbi_data_flag = 1;
    if (unit->n == 0 || unit->n > CAPTIONS_RECORDS || unit->records[unit->n - 1].field_number != 3)
        add_record(unit, some_record(d, 3, call->line_offset));
}

static void move_record(dice *d, film_call *call)
{
    unit_value *unit = &call->unit;

    if (unit->n > 0 && unit->n <= CAPTIONS_RECORDS)
        unit->records[below(d, unit->n)].line_offset = (uint8_t)below(d, 32);
    else
        add_record(unit, some_record(d, 1, (call->line_offset + 1) % 32));
}

/* Five or more of priority 0 in a field. They are on other lines too, but 9 comes first. */
static void crowd_field(dice *d, film_call *call)
{
    unit_value *unit = &call->unit;
    uint8_t field = (uint8_t)(1 + below(d, 3)), line = (uint8_t)below(d, 20);

    unit->vbi_data_flag = 1;
    unit->n = 0;
    for (size_t left = 5 + below(d, 3); left > 0; left--) {
        captions_record record = some_record(d, field, line++);
        record.cc_priority = 0;
        add_record(unit, record);
    }
}

/* A value that could be written, with records on many lines. */
static void other_unit(dice *d, film_call *call)
{
    legal_unit(d, &call->unit);
    if (chance(d, 50))
        spoil_unit(d, &call->unit);
}

static void spoil_picture(dice *d, film_call *call)
{
    switch (below(d, 11)) {
    case 0:
        call->top_field_first = (uint32_t)number_above(d, call->top_field_first, 1, 32);
        break;
    case 1:
        call->repeat_first_field = (uint32_t)number_above(d, call->repeat_first_field, 1, 32);
        break;
    case 2:
        call->line_offset = (uint32_t)number_above(d, call->line_offset, 31, 32);
        break;
    case 3:
    case 4:
        spoil_unit(d, &call->unit);
        break;
    case 5:
        other_unit(d, call);
        break;
    case 6:
        crowd_field(d, call);
        break;
    case 7:
    case 8:
        hide_third(d, call);
        break;
    default:
        move_record(d, call);
        break;
    }
}

/* ---- Runs ---- */

static void spoil_call(dice *d, film_call *call)
{
    if (call->closes || chance(d, 15))
        put_bad_state(d, call);
    else
        spoil_picture(d, call);
}

static void some_call(dice *d, film_call *call)
{
    memset(call, 0, sizeof *call);
    call->closes = chance(d, 15);
    if (!call->closes)
        legal_picture(d, call);
}

void film_case(dice *d, film_run *run, bool legal)
{
    bool bad = false; /* whether a state was put that no call takes */

    run->count = 1 + below(d, chance(d, 95) ? 8 : 30);
    for (size_t i = 0; i < run->count; i++) {
        film_call *call = &run->calls[i];
        some_call(d, call);
        if (bad ? chance(d, 85) : chance(d, 8))
            put_legal_state(d, call);
        if (!legal && chance(d, call->closes ? 20 : 50)) {
            spoil_call(d, call);
            if (chance(d, 40))
                spoil_call(d, call);
        }
        bad = call->puts_state ? film_is_bad(call->state) : bad;
    }
}
