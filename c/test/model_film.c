/*
 * model_film.c: film pictures into access units, from documents alone: 02, request 4; 01 for the value of a caption unit, the
 * two countings of fields and the numbers of refusals.
 *
 * Slots are put in one row: the one that waits, then those of the picture. What goes out is a matter of neighbours in that row.
 */
#include "model.h"

#include <string.h>

enum { ROW_MAX = 1 + 3 }; /* the slot that waits, and three fields of a repeated picture */

typedef enum side { ODD, EVEN } side;

/* What one display field brings: its pair of bytes, or two zeros that are not valid. */
typedef struct slot {
    side on;
    uint8_t valid, data_1, data_2;
} slot;

static const captions_film_sent nothing_sent;

static captions_film_sent refused(uint8_t number)
{
    return (captions_film_sent){.refusal = {number, 0}};
}

/* ---- Refusals (02, request 4, the order of its last sentence) ---- */

/* Whether a call can have left this: nothing, which is four zeros, or a slot, in which an invalid one is zero. */
static bool is_state(const captions_film *film)
{
    bool zeros = film->cc_data_1 == 0 && film->cc_data_2 == 0;

    switch (film->waiting) {
    case 0:
        return film->cc_valid == 0 && zeros;
    case 1:
        return film->cc_valid == 1 || (film->cc_valid == 0 && zeros);
    default:
        return false;
    }
}

/* A picture that does not repeat its first field has no third one. */
static bool has_third_field(const captions_record *records, size_t n)
{
    for (size_t i = 0; i < n; i++)
        if (records[i].field_number == 3)
            return true;
    return false;
}

static bool has_other_line(const captions_record *records, size_t n, uint32_t line)
{
    for (size_t i = 0; i < n; i++)
        if (records[i].line_offset != line)
            return true;
    return false;
}

/* ---- Slots (02, request 4; 01: field_number counts display fields of the picture) ---- */

/* The fields alternate from the first one on, which is odd exactly when the top field comes first. */
static side side_of(unsigned field, uint32_t top_field_first)
{
    side first = top_field_first == 1 ? ODD : EVEN, other = top_field_first == 1 ? EVEN : ODD;

    return field == 2 ? other : first;
}

/* A legal value has one record at most in a field on a line. */
static slot slot_of(unsigned field, side on, uint32_t line, const captions_record *records, size_t n)
{
    for (size_t i = 0; i < n; i++)
        if (records[i].field_number == field && records[i].line_offset == line)
            return (slot){on, 1, records[i].cc_data_1, records[i].cc_data_2};
    return (slot){on, 0, 0, 0};
}

/* The row begins with the slot that waits, which is always an odd one. */
static size_t begin_row(const captions_film *film, slot *row)
{
    row[0] = (slot){ODD, film->cc_valid, film->cc_data_1, film->cc_data_2};
    return film->waiting;
}

/* ---- Frames (004, Table 2: field 1 is the odd one of a frame) ---- */

static captions_access_unit frame(slot odd, slot even)
{
    return (captions_access_unit){odd.valid, even.valid, 0, odd.data_1, odd.data_2, even.data_1, even.data_2};
}

/* The other side of a slot that goes out alone. */
static slot filled_in(side on)
{
    return (slot){on, 0, 0, 0};
}

/*
 * Sends a row: an odd slot with the even one right behind it, every other slot alone. An odd one at the very end has nothing
 * behind it yet: it waits, or goes out alone where the run is closed.
 */
static captions_film_sent send(const slot *row, size_t len, bool closes, captions_film *film, captions_access_unit *units)
{
    captions_film_sent answer = nothing_sent;
    size_t i = 0;

    memset(units, 0, CAPTIONS_FILM_UNITS * sizeof *units);
    memset(film, 0, sizeof *film);
    while (i < len) {
        bool last = i + 1 == len;
        if (row[i].on == EVEN) {
            units[answer.m++] = frame(filled_in(ODD), row[i]);
            i += 1;
        } else if (!last && row[i + 1].on == EVEN) {
            units[answer.m++] = frame(row[i], row[i + 1]);
            i += 2;
        } else if (!last || closes) {
            units[answer.m++] = frame(row[i], filled_in(EVEN));
            i += 1;
        } else {
            *film = (captions_film){1, row[i].valid, row[i].data_1, row[i].data_2};
            i += 1;
        }
    }
    return answer;
}

/* ---- The calls ---- */

captions_film_sent model_film_picture(captions_film *film, uint32_t top_field_first, uint32_t repeat_first_field,
                                      uint32_t line_offset, uint32_t reserved, uint32_t vbi_data_flag, size_t n, size_t z,
                                      const captions_record *records, captions_access_unit *units)
{
    slot row[ROW_MAX];
    size_t len;
    uint8_t number;

    if (!is_state(film) || top_field_first > 1 || repeat_first_field > 1 || line_offset > 31)
        return refused(15);
    number = model_judge_value(reserved, vbi_data_flag, n, z, records);
    if (number != 0)
        return refused(number);
    if (repeat_first_field == 0 && has_third_field(records, n))
        return refused(21);
    if (has_other_line(records, n, line_offset))
        return refused(22);
    len = begin_row(film, row);
    for (unsigned field = 1; field <= 2 + repeat_first_field; field++)
        row[len++] = slot_of(field, side_of(field, top_field_first), line_offset, records, n);
    return send(row, len, false, film, units);
}

captions_film_sent model_film_close(captions_film *film, captions_access_unit *units)
{
    slot row[ROW_MAX];

    if (!is_state(film))
        return refused(15);
    return send(row, begin_row(film, row), true, film, units);
}
