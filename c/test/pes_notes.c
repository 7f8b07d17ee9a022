/* pes_notes.c: see pes_notes.h. */
#include "pes_notes.h"

#include <stdio.h>
#include <string.h>

#include "convert_notes.h"

enum { PES_LEAST = 20, ROW = 4 /* the byte of a unit at which its row begins */ };

/* What can be wrong in a unit, in the order of checks: as it is read, and as a value. */
typedef enum fault { ID, LENGTH, RESERVED, LINE, FRAMING, FAULTS } fault;
typedef enum value_fault { VALUE_ID, VALUE_PARITY, VALUE_LINE, OTHER_LINE, VALUE_FAULTS } value_fault;

static const char *const fault_names[FAULTS] = {"id", "length", "reserved bits", "line", "framing code"};
static const char *const value_names[VALUE_FAULTS] = {"id", "field_parity above 1", "line_offset above 31",
                                                      "line_offset not legal"};

/* Where a unit stands: the first of several, the last of 31, and all between. */
typedef enum position { FIRST, BETWEEN, LAST, POSITIONS } position;

static const char *const position_names[POSITIONS] = {"in the first unit of several", "in a unit between", "in the 31st unit"};

typedef enum meeting {
    READ_BOTH_KINDS,
    READ_FALLS,
    READ_TWICE,
    READ_CUT_LENGTH, /* and the items behind it */
    READ_CUT_LINE,
    READ_CUT_FRAMING,
    READ_CUT_ROW,
    READ_CUT_STUFFING,
    BEHIND_KNOWN,
    BEHIND_UNKNOWN,
    BEHIND_WHOLE,
    BEHIND_WRONG,
    WRITE_BEYOND,
    WRITE_STUFFING,
    IDENTIFIER_BELOW,
    IDENTIFIER_ABOVE,
    IDENTIFIER_UPPER,
    UNITS_32,
    UNITS_ABOVE,
    UNITS_UPPER,
    UNITS_WRAP,
    IDENTIFIER_AND_UNITS, /* two faults of a value */
    IDENTIFIER_AND_UNIT,
    UNITS_AND_UNIT,
    ID_AND_LINE,
    PARITY_AND_LINE,
    LATER_7,
    LATER_15,
    UNIT_AND_ROOM,
    SHORT_BY_ONE,
    SHORT_BY_ALL,
    MEETINGS
} meeting;

static const char *const meeting_names[MEETINGS] = {
    "read: teletext and stuffing in one field",
    "read: a line below that of the unit before",
    "read: one line of one field twice",
    "read: ends before a length",
    "read: ends before a line",
    "read: ends before a framing code",
    "read: ends in a row, or before it",
    "read: ends in stuffing, or before it",
    "read: behind 31 units a known id",
    "read: behind 31 units another byte",
    "read: behind 31 units a whole unit",
    "read: a wrong 31st unit, and bytes behind it",
    "written: behind n a unit that cannot be",
    "written: stuffing whose bytes are no teletext's",
    "data_identifier below 16",
    "data_identifier above 31",
    "data_identifier legal but for upper bits",
    "32 units",
    "above 32 units",
    "units legal but for upper bits",
    "units whose length is small again with 64 bits",
    "two faults: data_identifier, then units",
    "two faults: data_identifier, then a unit",
    "two faults: units, then a unit",
    "two faults: id and line of one unit",
    "two faults: field_parity and line of one unit",
    "two faults: 15 in a unit, then 7 in a later one",
    "two faults: 7 in a unit, then 15 in a later one",
    "two faults: a unit, then too short a room",
    "written: too short a room by one byte",
    "written: no room",
};

static struct {
    unsigned long meetings[MEETINGS];
    unsigned long units[CAPTIONS_PES_UNITS + 1]; /* accepted in reading, by their number */
    unsigned long identifiers[16];
    unsigned long lines_read[2][LINES], lines_written[2][LINES];
    unsigned long wrong[FAULTS][POSITIONS], wrong_values[VALUE_FAULTS][POSITIONS];
    unsigned long in_one[FAULTS][FAULTS]; /* a fault, and one that comes later in the same unit */
    unsigned long in_two[FAULTS][FAULTS]; /* and one of a later unit */
} met;

bool is_legal_line(unsigned line)
{
    return line == 0 || (line >= 7 && line <= 22);
}

/* Units of a field that is not there count as many as the 31. */
static void note_position(unsigned long *at, size_t k, size_t n)
{
    if (n > 1 && k == 0)
        at[FIRST]++;
    else if (k + 1 == CAPTIONS_PES_UNITS)
        at[LAST]++;
    else if (k > 0)
        at[BETWEEN]++;
}

/* ---- Reading ---- */

static void note_read(const outcome *got)
{
    static captions_data_unit units[CAPTIONS_PES_UNITS];
    const captions_data_unit *before = NULL;
    size_t n = got->numbers[3], teletext = 0;

    memcpy(units, got->memory, sizeof units);
    met.units[n]++;
    met.identifiers[got->numbers[2] - 16]++;
    for (size_t i = 0; i < n; i++) {
        const captions_teletext *t = &units[i].of.teletext;
        if (units[i].data_unit_id == LAYOUT_STUFFING_ID)
            continue;
        teletext++;
        met.lines_read[t->field_parity][t->line_offset]++;
        if (before != NULL) {
            met.meetings[READ_FALLS] += t->line_offset < before->of.teletext.line_offset;
            met.meetings[READ_TWICE] += t->line_offset == before->of.teletext.line_offset &&
                                        t->field_parity == before->of.teletext.field_parity;
        }
        before = &units[i];
    }
    met.meetings[READ_BOTH_KINDS] += teletext > 0 && teletext < n;
}

/* Each fault of 46 bytes by itself, whatever the others are. Stuffing has but two. */
static void find_faults(const uint8_t *unit, bool found[FAULTS])
{
    bool stuffing = unit[0] == LAYOUT_STUFFING_ID;

    found[ID] = unit[0] != 0x02 && unit[0] != 0x03 && !stuffing;
    found[LENGTH] = unit[1] != 0x2C;
    found[RESERVED] = !stuffing && unit[2] / 64 != 3;
    found[LINE] = !stuffing && !is_legal_line(unit[2] % 32);
    found[FRAMING] = !stuffing && unit[3] != 0xE4;
}

/* The unit that begins at `at` is refused, and all of it is there. */
static void note_wrong_unit(const question *q, size_t at)
{
    bool found[FAULTS], later_found[FAULTS];
    size_t k = at / LAYOUT_DATA_UNIT;
    int first = 0;

    find_faults(q->bytes + at, found);
    while (first < FAULTS && !found[first])
        first++;
    if (first == FAULTS)
        return; /* it ends too soon */
    note_position(met.wrong[first], k, (q->len - 1) / LAYOUT_DATA_UNIT);
    for (int later = first + 1; later < FAULTS; later++)
        met.in_one[first][later] += found[later];
    for (at += LAYOUT_DATA_UNIT; at + LAYOUT_DATA_UNIT <= q->len && at < CAPTIONS_PES_BYTES; at += LAYOUT_DATA_UNIT) {
        find_faults(q->bytes + at, later_found);
        for (int later = 0; later < FAULTS; later++)
            met.in_two[first][later] += later_found[later];
    }
    met.meetings[BEHIND_WRONG] += k + 1 == CAPTIONS_PES_UNITS && q->len > CAPTIONS_PES_BYTES;
}

/* Which item of its unit is not all there, by the byte of the unit at which it begins. */
static void note_end(const question *q, size_t place)
{
    size_t item = (place - 1) % LAYOUT_DATA_UNIT;
    bool stuffing = q->bytes[place - item] == LAYOUT_STUFFING_ID;

    met.meetings[READ_CUT_LENGTH] += item == 1;
    met.meetings[READ_CUT_LINE] += item == 2 && !stuffing;
    met.meetings[READ_CUT_FRAMING] += item == 3;
    met.meetings[READ_CUT_ROW] += item == ROW;
    met.meetings[READ_CUT_STUFFING] += item == 2 && stuffing;
}

static void note_behind(const question *q)
{
    uint8_t id = q->bytes[CAPTIONS_PES_BYTES];
    bool known = id == 0x02 || id == 0x03 || id == LAYOUT_STUFFING_ID;

    met.meetings[BEHIND_KNOWN] += known;
    met.meetings[BEHIND_UNKNOWN] += !known;
    met.meetings[BEHIND_WHOLE] += known && q->len >= CAPTIONS_PES_BYTES + LAYOUT_DATA_UNIT;
}

static void note_reading(const question *q, const outcome *got)
{
    size_t place = got->numbers[1], at;

    if (got->numbers[0] == 0)
        note_read(got);
    if (got->numbers[0] == 24)
        note_behind(q);
    if (got->numbers[0] == 0 || got->numbers[0] == 24 || place == 0)
        return;
    at = place - (place - 1) % LAYOUT_DATA_UNIT;
    if (got->numbers[0] == 5)
        note_end(q, place);
    else if (at + LAYOUT_DATA_UNIT <= q->len)
        note_wrong_unit(q, at);
}

/* ---- Writing ---- */

/* The first fault of a unit's value, and whether its line is none that is legal beside it. */
static value_fault fault_of(const captions_data_unit *unit)
{
    const captions_teletext *t = &unit->of.teletext;

    if (unit->data_unit_id == LAYOUT_STUFFING_ID)
        return VALUE_FAULTS;
    if (unit->data_unit_id != 2 && unit->data_unit_id != 3)
        return VALUE_ID;
    if (t->field_parity > 1)
        return VALUE_PARITY;
    if (t->line_offset > 31)
        return VALUE_LINE;
    return is_legal_line(t->line_offset) ? VALUE_FAULTS : OTHER_LINE;
}

static void note_written(const question *q)
{
    const pes_value *v = &q->pes;

    for (size_t i = 0; i < v->n; i++) {
        const captions_teletext *t = &v->units[i].of.teletext;
        if (v->units[i].data_unit_id != LAYOUT_STUFFING_ID)
            met.lines_written[t->field_parity][t->line_offset]++;
        else
            met.meetings[WRITE_STUFFING] += t->field_parity > 1 || t->line_offset > 31;
    }
    met.meetings[WRITE_BEYOND] += v->n < CAPTIONS_PES_UNITS && fault_of(&v->units[v->n]) != VALUE_FAULTS;
}

/* The units that count, or all where no array has so many: which is the first wrong one. */
static size_t first_wrong(const pes_value *v)
{
    size_t n = v->n < CAPTIONS_PES_UNITS ? v->n : CAPTIONS_PES_UNITS, i = 0;

    while (i < n && fault_of(&v->units[i]) == VALUE_FAULTS)
        i++;
    return i;
}

static void note_wrong_value(const question *q, size_t k)
{
    const pes_value *v = &q->pes;
    value_fault first = fault_of(&v->units[k]);
    bool bad_line = v->units[k].of.teletext.line_offset <= 31 && !is_legal_line(v->units[k].of.teletext.line_offset);

    note_position(met.wrong_values[first], k, v->n);
    met.meetings[ID_AND_LINE] += first == VALUE_ID && bad_line;
    met.meetings[PARITY_AND_LINE] += first == VALUE_PARITY && bad_line;
    met.meetings[UNIT_AND_ROOM] += q->room < 1 + LAYOUT_DATA_UNIT * v->n;
    for (size_t i = k + 1; i < v->n; i++) {
        value_fault later = fault_of(&v->units[i]);
        met.meetings[LATER_7] += first != OTHER_LINE && later == OTHER_LINE;
        met.meetings[LATER_15] += first == OTHER_LINE && later < OTHER_LINE;
    }
}

static void note_writing(const question *q, const outcome *got)
{
    const pes_value *v = &q->pes;
    bool bad_identifier = v->data_identifier < 16 || v->data_identifier > 31, many = v->n > CAPTIONS_PES_UNITS;
    size_t k = first_wrong(v), len = 1 + LAYOUT_DATA_UNIT * v->n;
    bool wrong = k < v->n && k < CAPTIONS_PES_UNITS;

    met.meetings[IDENTIFIER_BELOW] += v->data_identifier < 16;
    met.meetings[IDENTIFIER_ABOVE] += v->data_identifier > 31;
    met.meetings[IDENTIFIER_UPPER] += v->data_identifier > 255 && v->data_identifier % 256 / 16 == 1;
    met.meetings[UNITS_32] += v->n == 32;
    met.meetings[UNITS_ABOVE] += v->n > 32;
    met.meetings[UNITS_UPPER] += many && v->n % 256 <= CAPTIONS_PES_UNITS;
    met.meetings[UNITS_WRAP] += many && len <= CAPTIONS_PES_BYTES;
    met.meetings[IDENTIFIER_AND_UNITS] += bad_identifier && many;
    met.meetings[IDENTIFIER_AND_UNIT] += bad_identifier && wrong;
    met.meetings[UNITS_AND_UNIT] += many && wrong;
    met.meetings[SHORT_BY_ONE] += got->numbers[0] == 14 && q->room + 1 == len;
    met.meetings[SHORT_BY_ALL] += got->numbers[0] == 14 && q->room == 0;
    if (got->numbers[0] == 0)
        note_written(q);
    else if (!bad_identifier && !many && wrong)
        note_wrong_value(q, k);
}

void note_pes(const question *q, const outcome *by_model)
{
    if (q->op == PES_READ)
        note_reading(q, by_model);
    else if (q->op == PES_WRITE)
        note_writing(q, by_model);
    else
        note_conversion(q, by_model);
}

/* ---- Telling ---- */

void tell_lines(teller with, const char *name, unsigned long counts[2][LINES])
{
    unsigned long legal[2 * LINES];
    size_t count = 0;

    for (size_t i = 0; i < 2 * LINES; i++)
        if (is_legal_line((unsigned)(i % LINES)))
            legal[count++] = counts[i / LINES][i % LINES];
    tell_least(with, name, legal, count);
}

static void tell_faults(teller with)
{
    char name[96];

    for (int f = 0; f < FAULTS; f++)
        for (int p = 0; p < POSITIONS; p++) {
            snprintf(name, sizeof name, "read: wrong %s, %s", fault_names[f], position_names[p]);
            with(name, met.wrong[f][p]);
        }
    for (int first = 0; first < FAULTS; first++)
        for (int later = first + 1; later < FAULTS; later++) {
            snprintf(name, sizeof name, "two faults in one unit: %s, then %s", fault_names[first], fault_names[later]);
            with(name, met.in_one[first][later]);
        }
    for (int first = 0; first < FAULTS; first++)
        for (int later = 0; later < FAULTS; later++) {
            snprintf(name, sizeof name, "two faults in two units: %s, then %s", fault_names[first], fault_names[later]);
            with(name, met.in_two[first][later]);
        }
    for (int f = 0; f < VALUE_FAULTS; f++)
        for (int p = 0; p < POSITIONS; p++) {
            snprintf(name, sizeof name, "written: %s, %s", value_names[f], position_names[p]);
            with(name, met.wrong_values[f][p]);
        }
}

/* Calls `with` for each count, under its name. */
static void each_count(teller with)
{
    tell_least(with, "read: each number of units, at least", met.units, CAPTIONS_PES_UNITS + 1);
    tell_least(with, "read: each data_identifier, at least", met.identifiers, 16);
    tell_lines(with, "read: each line of each field, at least", met.lines_read);
    tell_lines(with, "written: each line of each field, at least", met.lines_written);
    tell_faults(with);
    tell_conversions(with);
    for (int i = 0; i < MEETINGS; i++)
        with(meeting_names[i], met.meetings[i]);
}

static void print_count(const char *name, unsigned long count)
{
    printf("%-64s %8lu\n", name, count);
}

void print_pes(void)
{
    printf("%-64s %8s\n", "data fields", "met");
    each_count(print_count);
}

static bool good;

static void need_count(const char *name, unsigned long count)
{
    if (count >= PES_LEAST)
        return;
    printf("data fields: %s: met %lu times, fewer than %u\n", name, count, (unsigned)PES_LEAST);
    good = false;
}

bool enough_pes(void)
{
    good = true;
    each_count(need_count);
    return good;
}
