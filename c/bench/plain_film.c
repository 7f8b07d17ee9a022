/* plain_film.c: film pictures into access units; see plain.h. Sections named in comments are those of docs/RULES.md. */
#include "plain_records.h"

enum { FIELDS = 3 };

/* What one display field has: its pair of bytes, or zeros ("Film"). */
typedef struct slot {
    uint8_t valid;
    uint8_t data_1;
    uint8_t data_2;
} slot;

static captions_film_sent refuse(uint8_t number)
{
    return (captions_film_sent){.refusal = {number, 0}};
}

/* Whether a call can have left it: only a slot that waits is valid, and only a valid one has bytes. */
static bool is_state(captions_film s)
{
    if (s.cc_valid == 1) {
        return s.waiting == 1;
    }
    return s.waiting <= 1 && (s.cc_valid | s.cc_data_1 | s.cc_data_2) == 0;
}

/*
 * The records in one pass: 15, 7, 8, 9 of each, then 21 of any, then 22 of any. Where all is right they are on one line, so
 * that a display field has one at most.
 */
static uint8_t take_records(uint32_t line, uint32_t repeat, size_t n, const captions_record *records, slot slots[static FIELDS])
{
    bool third = false;
    bool other_line = false;
    last before = {0};
    for (size_t i = 0; i < n; i++) {
        captions_record r = records[i];
        uint8_t number = judge_passed_record(&before, r);
        if (number != CAPTIONS_ACCEPTED) {
            return number;
        }
        third |= r.field_number == 3;
        other_line |= r.line_offset != line;
        slots[r.field_number - 1] = (slot){1, r.cc_data_1, r.cc_data_2};
    }
    if (third && repeat == 0) {
        return CAPTIONS_NOT_SHOWN;
    }
    return other_line ? CAPTIONS_OTHER_LINE : CAPTIONS_ACCEPTED;
}

/* Field 1 is the odd one. A state in which nothing waits is all zero, as the field that is filled in. */
static captions_access_unit frame(captions_film odd, slot even)
{
    return (captions_access_unit){odd.cc_valid, even.valid, 0, odd.cc_data_1, odd.cc_data_2, even.data_1, even.data_2};
}

captions_film_sent plain_film_picture(captions_film *film, uint32_t top_field_first, uint32_t repeat_first_field,
                                      uint32_t line_offset, uint32_t reserved, uint32_t vbi_data_flag, size_t n, size_t z,
                                      const captions_record records[static CAPTIONS_RECORDS],
                                      captions_access_unit units[static CAPTIONS_FILM_UNITS])
{
    captions_film state = *film;
    if (!is_state(state) || top_field_first > 1 || repeat_first_field > 1 || line_offset > 31) {
        return refuse(CAPTIONS_UNHOLDABLE);
    }
    if (n > CAPTIONS_RECORDS || reserved > 127 || vbi_data_flag > 1 || z > CAPTIONS_AREA_BYTES ||
        (vbi_data_flag == 0 && n != 0) || is_group_type(reserved << 1 | vbi_data_flag)) {
        return refuse(CAPTIONS_UNHOLDABLE);
    }
    slot slots[FIELDS] = {{0}};
    uint8_t number = take_records(line_offset, repeat_first_field, n, records, slots);
    if (number != CAPTIONS_ACCEPTED) {
        return refuse(number);
    }
    captions_film_sent sent = {.m = 0};
    size_t fields = 2 + repeat_first_field;
    bool odd = top_field_first == 1;
    for (size_t i = 0; i < fields; i++, odd = !odd) {
        if (!odd) {
            units[sent.m++] = frame(state, slots[i]);
            state = (captions_film){0};
            continue;
        }
        if (state.waiting) {
            units[sent.m++] = frame(state, (slot){0});
        }
        state = (captions_film){1, slots[i].valid, slots[i].data_1, slots[i].data_2};
    }
    /* Two fields or three send one unit at least. */
    if (sent.m < CAPTIONS_FILM_UNITS) {
        units[1] = (captions_access_unit){0};
    }
    *film = state;
    return sent;
}

captions_film_sent plain_film_close(captions_film *film, captions_access_unit units[static CAPTIONS_FILM_UNITS])
{
    captions_film state = *film;
    if (!is_state(state)) {
        return refuse(CAPTIONS_UNHOLDABLE);
    }
    /* If nothing waits, the unit is all zero too, as the place behind it. */
    units[0] = frame(state, (slot){0});
    units[1] = (captions_access_unit){0};
    *film = (captions_film){0};
    return (captions_film_sent){.m = state.waiting};
}
