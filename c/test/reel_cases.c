/* reel_cases.c: see reel_cases.h. */
#include "reel_cases.h"

#include "mutate.h"

/* ---- Legal runs ---- */

/* Small sizes, so that a short run makes many payloads, and the edges. */
static size_t some_size(dice *d)
{
    static const size_t edges[] = {1, 2, 290, 291};

    switch (below(d, 6)) {
    case 0:
        return edges[below(d, sizeof edges / sizeof *edges)];
    case 1:
        return 1 + below(d, CAPTIONS_ACCESS_UNITS);
    default:
        return 1 + below(d, 20);
    }
}

/* Whole payloads in many cases, or one unit more or less. */
static size_t some_length(dice *d, size_t size)
{
    size_t most = chance(d, 20) ? 4 * size : 40, n;

    if (chance(d, 1))
        return REEL_UNITS_MAX - below(d, chance(d, 70) ? size + 2 : REEL_UNITS_MAX);
    if (chance(d, 40))
        return below(d, most + 1);
    n = size * below(d, most / size + 2) + below(d, 3);
    return n > 0 ? n - 1 : 0;
}

void legal_reel(dice *d, reel_value *to)
{
    to->flags = any_byte(d);
    to->size = some_size(d);
    to->n = some_length(d, to->size);
    to->stray = 0;
    for (size_t i = 0; i < to->n; i++)
        to->units[i] = legal_access_unit(d);
}

size_t reel_payloads(const reel_value *value)
{
    return (value->n + value->size - 1) / value->size;
}

size_t reel_bytes(const reel_value *value, size_t payloads)
{
    size_t units = payloads * value->size;

    return 5 * (units < value->n ? units : value->n) + payloads;
}

/* ---- Faults ---- */

static bool has_payloads(const reel_value *value)
{
    return value->n > 0 && value->size >= 1 && value->size <= CAPTIONS_ACCESS_UNITS;
}

/* The first, the last or any payload. */
static size_t some_payload(dice *d, const reel_value *value)
{
    size_t payloads = reel_payloads(value);

    switch (below(d, 4)) {
    case 0:
        return 0;
    case 1:
        return payloads - 1;
    default:
        return below(d, payloads);
    }
}

/* A unit that no payload holds: the first of one, the last of one, or any. */
static void spoil_some_unit(dice *d, reel_value *value)
{
    size_t payload = some_payload(d, value), first = payload * value->size, last = first + value->size - 1;

    if (last >= value->n)
        last = value->n - 1;
    switch (below(d, 3)) {
    case 0:
        spoil_access_unit(d, &value->units[first]);
        break;
    case 1:
        spoil_access_unit(d, &value->units[last]);
        break;
    default:
        spoil_access_unit(d, &value->units[first + below(d, last - first + 1)]);
        break;
    }
}

/* Room for all payloads before one, and for that one a byte too little, or nothing, or some of it. */
static size_t short_room(dice *d, const reel_value *value)
{
    size_t payload = some_payload(d, value);
    size_t before = reel_bytes(value, payload), behind = reel_bytes(value, payload + 1);

    switch (below(d, 4)) {
    case 0:
        return before;
    case 1:
        return before + below(d, behind - before);
    default:
        return behind - 1;
    }
}

static size_t some_bad_size(dice *d, size_t size)
{
    switch (below(d, 4)) {
    case 0:
        return 0;
    case 1:
        return CAPTIONS_ACCESS_UNITS + 1;
    default:
        return number_above(d, size, CAPTIONS_ACCESS_UNITS, 64);
    }
}

/* Bytes of one unit more, which is not all there. */
static void cut_off(dice *d, question *q)
{
    q->reel.stray = 1 + below(d, sizeof *q->reel.units - 1);
    q->reel.units[q->reel.n] = legal_access_unit(d);
    q->as_bytes = true;
}

void spoil_reel(dice *d, question *q)
{
    switch (below(d, 12)) {
    case 0:
        q->reel.flags = (uint32_t)number_above(d, q->reel.flags, 255, 32);
        break;
    case 1:
        q->reel.size = some_bad_size(d, q->reel.size);
        break;
    case 2:
        cut_off(d, q);
        break;
    case 3:
    case 4:
    case 5:
    case 6:
        if (has_payloads(&q->reel))
            spoil_some_unit(d, &q->reel);
        break;
    default:
        if (has_payloads(&q->reel))
            q->room = short_room(d, &q->reel);
        break;
    }
}
