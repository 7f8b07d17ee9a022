/* trips.c: see trips.h. */
#include "trips.h"

#include <string.h>

#include "film_trips.h"
#include "model_area.h"
#include "multi_trips.h"
#include "pes_trips.h"
#include "reel_trips.h"

static question back;
static outcome expected, answer;

static const char *compare(unsigned long *made)
{
    ++*made;
    ask(&library_calls, &back, SPOIL_NOTHING, &answer);
    return difference(&back, &expected, &answer);
}

static void begin(operation op, const question *q)
{
    back.op = op;
    back.fill = (uint16_t)(q->fill + 0x8080);
    back.at = q->at == AT_END ? AT_FRONT : AT_END;
    back.nulls = q->nulls;
}

/* Expects exactly `len` elements from `from`, in a room that has no more. */
static void expect_written(const void *from, size_t len)
{
    back.room = len;
    outcome_begin(&back, &expected);
    expected.numbers[2] = len;
    memcpy(expected.memory, from, len * element_bytes(back.op));
}

/* ---- Areas: the same for both kinds of unit ---- */

static bool of_ga94(operation op)
{
    return op == GA94_READ || op == GA94_WRITE || op == GA94_REPLACE;
}

/* The reader of the question's kind, and that of the other. */
static operation reader(const question *q)
{
    return of_ga94(q->op) ? GA94_READ : AREA_READ;
}

static operation other_reader(const question *q)
{
    return of_ga94(q->op) ? AREA_READ : GA94_READ;
}

static operation replacer(const question *q)
{
    return of_ga94(q->op) ? GA94_REPLACE : AREA_REPLACE;
}

static void ga94_read(const outcome *got, ga94_value *to)
{
    to->process_em_data_flag = (uint32_t)got->numbers[3];
    to->process_cc_data_flag = (uint32_t)got->numbers[4];
    to->additional_data_flag = (uint32_t)got->numbers[5];
    to->em_data = (uint32_t)got->numbers[6];
    to->n = got->numbers[7];
    to->z = got->numbers[8];
    memcpy(to->records, got->memory, sizeof to->records);
}

static void unit_read(const outcome *got, unit_value *to)
{
    to->reserved = (uint32_t)got->numbers[3];
    to->vbi_data_flag = (uint32_t)got->numbers[4];
    to->n = got->numbers[5];
    to->z = got->numbers[6];
    memcpy(to->records, got->memory, sizeof to->records);
}

/* The value that was read becomes the one to write. */
static void value_read(const outcome *got)
{
    if (takes_ga94(back.op))
        ga94_read(got, &back.ga94);
    else
        unit_read(got, &back.unit);
}

static void expect_ga94(const ga94_value *value)
{
    expected.numbers[3] = value->process_em_data_flag;
    expected.numbers[4] = value->process_cc_data_flag;
    expected.numbers[5] = value->additional_data_flag;
    expected.numbers[6] = value->em_data;
    expected.numbers[7] = value->n;
    expected.numbers[8] = value->z;
    memcpy(expected.memory, value->records, value->n * sizeof *value->records);
}

static void expect_unit(const unit_value *value)
{
    expected.numbers[3] = value->reserved;
    expected.numbers[4] = value->vbi_data_flag;
    expected.numbers[5] = value->n;
    expected.numbers[6] = value->z;
    memcpy(expected.memory, value->records, value->n * sizeof *value->records);
}

/* Expects the value of q from a reader. */
static void expect_value(const question *q)
{
    outcome_begin(&back, &expected);
    expected.numbers[2] = 1;
    memset(expected.memory, 0, expected.size);
    if (back.op == GA94_READ)
        expect_ga94(&q->ga94);
    else
        expect_unit(&q->unit);
}

static void lend_area(const uint8_t *bytes, size_t len)
{
    memcpy(back.bytes, bytes, len);
    back.len = len;
}

/* ---- Data groups, which are foreign to both kinds ---- */

static bool is_group(const uint8_t *area, size_t start, size_t end)
{
    return model_is_data_group(area + start + LAYOUT_START, end - start - LAYOUT_START);
}

/* An area without its data groups is read as with them. */
static const char *groups_do_not_count(const question *q, const outcome *got, unsigned long *made)
{
    begin(q->op, q);
    back.len = 0;
    for (size_t at = 0, end; at < q->len; at = end) {
        end = model_unit_end(q->bytes, q->len, at);
        if (!is_group(q->bytes, at, end)) {
            memcpy(back.bytes + back.len, q->bytes + at, end - at);
            back.len += end - at;
        }
    }
    if (back.len == q->len)
        return NULL;
    outcome_begin(&back, &expected);
    memcpy(expected.numbers, got->numbers, sizeof expected.numbers);
    memcpy(expected.memory, got->memory, got->size);
    return compare(made);
}

/* Each stands in the new area as in the old one, as the same unit in order: ours has given way in its place, or is the last. */
static const char *groups_are_kept(const question *q, const outcome *got, unsigned long *made)
{
    const uint8_t *new_area = got->memory;
    size_t new_len = got->numbers[2];

    for (size_t at = 0, new_at = 0, end, new_end; at < q->len; at = end, new_at = new_end) {
        end = model_unit_end(q->bytes, q->len, at);
        new_end = model_unit_end(new_area, new_len, new_at);
        if (!is_group(q->bytes, at, end))
            continue;
        ++*made;
        if (new_end - new_at != end - at || memcmp(new_area + new_at, q->bytes + at, end - at) != 0)
            return "a data group is not what it was";
    }
    return NULL;
}

/* ---- Areas: reading and replacing ---- */

/* The value of an area's unit, put in its place again, gives the same area. */
static const char *after_area_read(const question *q, const outcome *got, unsigned long *made)
{
    const char *differs = groups_do_not_count(q, got, made);

    if (differs != NULL || got->numbers[2] == 0)
        return differs;
    begin(replacer(q), q);
    lend_area(q->bytes, q->len);
    value_read(got);
    expect_written(q->bytes, q->len);
    return compare(made);
}

/* A unit, or an area with a unit put in, has the value that was written. */
static const char *is_there(const question *q, const outcome *got, unsigned long *made)
{
    begin(reader(q), q);
    lend_area(got->memory, got->numbers[2]);
    expect_value(q);
    return compare(made);
}

/* A unit by itself is foreign to the reader of the other kind, which finds none. */
static const char *after_unit(const question *q, const outcome *got, unsigned long *made)
{
    const char *differs = is_there(q, got, made);

    if (differs != NULL)
        return differs;
    begin(other_reader(q), q);
    lend_area(got->memory, got->numbers[2]);
    outcome_begin(&back, &expected);
    memset(expected.memory, 0, expected.size);
    return compare(made);
}

/* The reader of the other kind answers for the new area as for the old one. A place, which is a bit, may move with its unit. */
static const char *other_is_kept(const question *q, const outcome *got, unsigned long *made)
{
    size_t moved = 8 * ((size_t)got->numbers[2] - q->len);

    begin(other_reader(q), q);
    lend_area(q->bytes, q->len);
    ask(&library_calls, &back, SPOIL_NOTHING, &expected);
    lend_area(got->memory, got->numbers[2]);
    ask(&library_calls, &back, SPOIL_NOTHING, &answer);
    if (expected.numbers[0] != 0 && answer.numbers[1] == expected.numbers[1] + moved)
        expected.numbers[1] += moved;
    ++*made;
    return difference(&back, &expected, &answer);
}

/* The old value put back gives the old area. Where there was none, the new unit follows the last byte. */
static const char *is_put_back(const question *q, const outcome *got, unsigned long *made)
{
    begin(reader(q), q);
    lend_area(q->bytes, q->len);
    ask(&library_calls, &back, SPOIL_NOTHING, &answer);
    if (answer.numbers[0] != 0)
        return "an area that was replaced in but is not read";
    if (answer.numbers[2] == 0)
        return memcmp(got->memory, q->bytes, q->len) == 0 ? NULL : "a unit that is not put behind the last byte";
    begin(replacer(q), q);
    lend_area(got->memory, got->numbers[2]);
    value_read(&answer);
    expect_written(q->bytes, q->len);
    return compare(made);
}

static const char *after_replace(const question *q, const outcome *got, unsigned long *made)
{
    const char *differs = is_there(q, got, made);

    if (differs == NULL)
        differs = other_is_kept(q, got, made);
    if (differs == NULL)
        differs = groups_are_kept(q, got, made);
    return differs != NULL ? differs : is_put_back(q, got, made);
}

/* ---- Packets ---- */

static const char *after_packet_read(const question *q, const outcome *got, unsigned long *made)
{
    begin(PACKET_WRITE, q);
    back.packet.counter = (uint32_t)got->numbers[2];
    for (size_t i = 0; i < CAPTIONS_SLOTS; i++) {
        const uint64_t *slot = got->numbers + 3 + 4 * i;
        back.packet.slots[i] = (captions_slot){(uint8_t)slot[0], (uint8_t)slot[1], (uint8_t)slot[2], (uint8_t)slot[3]};
    }
    memcpy(back.packet.rows, got->memory, sizeof back.packet.rows);
    expect_written(q->words, q->len);
    return compare(made);
}

static const char *after_packet_write(const question *q, const outcome *got, unsigned long *made)
{
    begin(PACKET_READ, q);
    back.len = got->numbers[2];
    memcpy(back.words, got->memory, back.len * sizeof *back.words);
    outcome_begin(&back, &expected);
    expected.numbers[2] = q->packet.counter;
    for (size_t i = 0; i < CAPTIONS_SLOTS; i++) {
        expected.numbers[3 + 4 * i] = q->packet.slots[i].full;
        expected.numbers[4 + 4 * i] = q->packet.slots[i].line;
        expected.numbers[5 + 4 * i] = q->packet.slots[i].reserved;
        expected.numbers[6 + 4 * i] = q->packet.slots[i].field;
    }
    memcpy(expected.memory, q->packet.rows, sizeof q->packet.rows);
    return compare(made);
}

/* ---- Payloads ---- */

static const char *after_payload_read(const question *q, const outcome *got, unsigned long *made)
{
    begin(PAYLOAD_WRITE, q);
    back.payload.flags = (uint32_t)got->numbers[2];
    back.payload.m = got->numbers[3];
    memcpy(back.payload.units, got->memory, sizeof back.payload.units);
    expect_written(q->bytes, q->len);
    return compare(made);
}

static const char *after_payload_write(const question *q, const outcome *got, unsigned long *made)
{
    begin(PAYLOAD_READ, q);
    back.len = got->numbers[2];
    memcpy(back.bytes, got->memory, back.len);
    outcome_begin(&back, &expected);
    expected.numbers[2] = q->payload.flags;
    expected.numbers[3] = q->payload.m;
    memset(expected.memory, 0, expected.size);
    memcpy(expected.memory, q->payload.units, q->payload.m * sizeof *q->payload.units);
    return compare(made);
}

const char *round_trip(const question *q, const outcome *got, unsigned long *made)
{
    static const char *(*const trips[OPERATIONS])(const question *, const outcome *, unsigned long *) = {
        after_area_read,    after_unit,          after_replace,     after_area_read,
        after_unit,         after_replace,       after_packet_read, after_packet_write,
        multi_read_trip,    multi_write_trip,    pes_read_trip,     pes_write_trip,
        pes_convert_trip,   pes_convert_value_trip,
        after_payload_read, after_payload_write, reel_trip,         film_trip};

    return trips[q->op](q, got, made);
}
