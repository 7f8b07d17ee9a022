/* reel_trips.c: see reel_trips.h. */
#include "reel_trips.h"

#include <string.h>

static question back;
static outcome expected, again;

static bool has_size(const reel_value *value)
{
    return value->size >= 1 && value->size <= CAPTIONS_ACCESS_UNITS;
}

/* How many units the payload has that begins with unit `at`. */
static size_t units_of(const reel_value *value, size_t at)
{
    return value->n - at < value->size ? value->n - at : value->size;
}

/* ---- The other call ---- */

static const char *other_call(const question *q, const outcome *got, unsigned long *made)
{
    const char *differs;

    back.op = PAYLOAD_REEL;
    back.fill = (uint16_t)(q->fill + 0x8080);
    back.at = q->at == AT_END ? AT_FRONT : AT_END;
    back.nulls = !q->nulls;
    back.as_bytes = !q->as_bytes;
    back.room = q->room;
    back.reel.flags = q->reel.flags;
    back.reel.size = q->reel.size;
    back.reel.n = q->reel.n;
    back.reel.stray = 0;
    memcpy(back.reel.units, q->reel.units, q->reel.n * sizeof *q->reel.units);
    outcome_begin(&back, &expected);
    memcpy(expected.numbers, got->numbers, 3 * sizeof *got->numbers);
    memcpy(expected.memory, got->memory, got->numbers[2]);
    ++*made;
    ask(&library_calls, &back, SPOIL_NOTHING, &again);
    differs = difference(&back, &expected, &again);
    return differs != NULL ? "over structs and over bytes the answers or the bytes differ" : NULL;
}

/* ---- One by one ---- */

/* Single calls, each with the output behind what stands; what they leave, and the answer of the one that is refused. */
static captions_written write_one_by_one(const question *q, uint8_t *out)
{
    static captions_access_unit units[CAPTIONS_ACCESS_UNITS];
    captions_written all = {.len = 0};

    for (size_t at = 0; at < q->reel.n; at += q->reel.size) {
        size_t m = units_of(&q->reel, at);
        captions_written one;
        memcpy(units, q->reel.units + at, m * sizeof *units);
        one = captions_payload_write(q->reel.flags, m, units, out + all.len, q->room - all.len);
        if (one.refusal.number != CAPTIONS_ACCEPTED)
            return one;
        all.len += one.len;
    }
    return all;
}

static const char *one_by_one(const question *q, const outcome *got, unsigned long *made)
{
    static uint8_t out[OUTPUT_MAX];
    captions_written all = write_one_by_one(q, out);

    ++*made;
    if (all.refusal.number != got->numbers[0] || all.refusal.place != got->numbers[1])
        return "single calls are refused in another way, or not";
    if (all.refusal.number == CAPTIONS_ACCEPTED && (all.len != got->numbers[2] || memcmp(out, got->memory, all.len) != 0))
        return "single calls give other bytes";
    return NULL;
}

/* ---- Back ---- */

static const char *read_back(const question *q, const outcome *got, unsigned long *made)
{
    static captions_access_unit units[CAPTIONS_ACCESS_UNITS];
    size_t from = 0;

    ++*made;
    for (size_t at = 0; at < q->reel.n; at += q->reel.size) {
        size_t m = units_of(&q->reel, at), len = 1 + 5 * m;
        captions_payload head = captions_payload_read(got->memory + from, len, units);
        if (head.refusal.number != CAPTIONS_ACCEPTED || head.flags != q->reel.flags || head.m != m)
            return "a payload of the reel has other flags, or another number of units";
        if (memcmp(units, q->reel.units + at, m * sizeof *units) != 0)
            return "a payload of the reel has other units than the run";
        from += len;
    }
    return from == got->numbers[2] ? NULL : "bytes that are of no payload";
}

const char *reel_trip(const question *q, const outcome *got, unsigned long *made)
{
    const char *differs;

    if (q->reel.stray > 0)
        return NULL;
    differs = other_call(q, got, made);
    if (differs == NULL && has_size(&q->reel) && q->reel.n > 0)
        differs = one_by_one(q, got, made);
    if (differs == NULL && got->numbers[0] == 0)
        differs = read_back(q, got, made);
    return differs;
}
