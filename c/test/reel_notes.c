/* reel_notes.c: see reel_notes.h. */
#include "reel_notes.h"

#include <stdio.h>

enum { REEL_LEAST = 20, LONG_REEL = 65536 };

typedef enum meeting {
    SIZE_1,
    SIZE_2,
    SIZE_290,
    SIZE_291,
    NO_UNITS,
    NO_UNITS_NO_ROOM,
    ONE_PAYLOAD,
    ONE_SHORT, /* a unit less than whole payloads, whole payloads, a unit more */
    WHOLE,
    ONE_MORE,
    LONG,
    ROOM_LEFT,
    FLAGS,
    SIZE_0,
    SIZE_292,
    SIZE_ABOVE,
    SIZE_NO_UNITS,
    STRAY,
    STRAY_NO_ROOM,
    VALID_1,
    VALID_2,
    PADDING,
    BAD_FIRST, /* in which payload the first wrong unit is */
    BAD_MIDDLE,
    BAD_LAST,
    BAD_FRONT, /* at which end of its payload */
    BAD_END,
    SHORT_FIRST, /* for which payload the room is too short */
    SHORT_MIDDLE,
    SHORT_LAST,
    SHORT_BY_ONE,
    SHORT_BY_ALL,
    BAD_BEFORE_SHORT, /* two faults */
    BAD_IN_SHORT,
    BAD_NEXT_TO_SHORT,
    BAD_BEHIND_SHORT,
    MEETINGS
} meeting;

static const char *const meeting_names[MEETINGS] = {
    "accepted: size 1",
    "accepted: size 2",
    "accepted: size 290",
    "accepted: size 291",
    "accepted: no units",
    "accepted: no units and no room",
    "accepted: one payload",
    "accepted: several payloads, the last a unit short",
    "accepted: several payloads, all whole",
    "accepted: several payloads, the last of one unit",
    "accepted: above 65,536 bytes",
    "accepted: more room than is needed",
    "flags above 255",
    "size 0",
    "size 292",
    "size above 292",
    "a size that no payload has, and no units",
    "a run that ends within a unit",
    "a run that ends within a unit, and no room",
    "cc_valid_1 above 1",
    "cc_valid_2 above 1",
    "padding above 63",
    "a wrong unit: in the first payload of several",
    "a wrong unit: between the first and the last",
    "a wrong unit: in the last payload of several",
    "a wrong unit: the first of its payload",
    "a wrong unit: the last of its payload",
    "too short a room: for the first payload of several",
    "too short a room: between the first and the last",
    "too short a room: for the last payload of several",
    "too short a room: by one byte",
    "too short a room: nothing left for a payload",
    "two faults: a wrong unit, then too short a room",
    "two faults: both in one payload",
    "two faults: too short a room, then a wrong unit",
    "two faults: the same, payloads apart",
};

static unsigned long met[MEETINGS];

static bool is_bad(captions_access_unit u)
{
    return u.cc_valid_1 > 1 || u.cc_valid_2 > 1 || u.padding > 63;
}

static void note_accepted(const question *q, size_t len)
{
    const reel_value *r = &q->reel;
    size_t size = r->size;

    met[SIZE_1] += size == 1;
    met[SIZE_2] += size == 2;
    met[SIZE_290] += size == 290;
    met[SIZE_291] += size == 291;
    met[NO_UNITS] += r->n == 0;
    met[NO_UNITS_NO_ROOM] += r->n == 0 && q->room == 0;
    met[ONE_PAYLOAD] += r->n > 0 && r->n <= size;
    met[ONE_SHORT] += r->n > size && (r->n + 1) % size == 0;
    met[WHOLE] += r->n > size && r->n % size == 0;
    met[ONE_MORE] += r->n > size && r->n % size == 1;
    met[LONG] += len > LONG_REEL;
    met[ROOM_LEFT] += q->room > len;
}

/* Faults that are seen without the units: true where there is one. */
static bool note_numbers(const question *q)
{
    const reel_value *r = &q->reel;
    bool bad_size = r->size == 0 || r->size > CAPTIONS_ACCESS_UNITS;

    met[FLAGS] += r->flags > 255;
    met[SIZE_0] += r->size == 0;
    met[SIZE_292] += r->size == 292;
    met[SIZE_ABOVE] += r->size > 292;
    met[SIZE_NO_UNITS] += bad_size && r->n == 0;
    met[STRAY] += r->stray > 0;
    met[STRAY_NO_ROOM] += r->stray > 0 && q->room == 0;
    return r->flags > 255 || bad_size || r->stray > 0;
}

/* Which unit is the first wrong one; n where none is. */
static size_t first_bad(const reel_value *r)
{
    size_t i = 0;

    while (i < r->n && !is_bad(r->units[i]))
        i++;
    return i;
}

/* Which payload is the first that does not find its room, and how many bytes are left for it; `payloads` where all do. */
static size_t first_short(const question *q, size_t payloads, size_t *left)
{
    const reel_value *r = &q->reel;

    *left = q->room;
    for (size_t p = 0; p < payloads; p++) {
        size_t m = p + 1 < payloads ? r->size : r->n - p * r->size;
        if (*left < 1 + 5 * m)
            return p;
        *left -= 1 + 5 * m;
    }
    return payloads;
}

/* One of three meetings: the first payload of several, one between, the last. */
static void note_which(meeting first, size_t p, size_t payloads)
{
    if (payloads > 1)
        met[p == 0 ? first : p + 1 < payloads ? first + 1 : first + 2]++;
}

static void note_bad(const reel_value *r, size_t bad, size_t payloads)
{
    captions_access_unit u = r->units[bad];

    met[VALID_1] += u.cc_valid_1 > 1;
    met[VALID_2] += u.cc_valid_2 > 1;
    met[PADDING] += u.padding > 63;
    met[BAD_FRONT] += r->size > 1 && bad % r->size == 0;
    met[BAD_END] += r->size > 1 && bad % r->size == r->size - 1;
    note_which(BAD_FIRST, bad / r->size, payloads);
}

static void note_short(const reel_value *r, size_t p, size_t left, size_t payloads)
{
    size_t m = p + 1 < payloads ? r->size : r->n - p * r->size;

    met[SHORT_BY_ONE] += left == 5 * m;
    met[SHORT_BY_ALL] += left == 0;
    note_which(SHORT_FIRST, p, payloads);
}

static void note_two(size_t bad, size_t short_for)
{
    met[BAD_BEFORE_SHORT] += bad < short_for;
    met[BAD_IN_SHORT] += bad == short_for;
    met[BAD_NEXT_TO_SHORT] += bad == short_for + 1;
    met[BAD_BEHIND_SHORT] += bad > short_for + 1;
}

void note_reel(const question *q, const outcome *by_model)
{
    const reel_value *r = &q->reel;
    size_t payloads, bad, short_for, left;

    if (by_model->numbers[0] == 0)
        note_accepted(q, by_model->numbers[2]);
    if (note_numbers(q) || r->n == 0)
        return;
    payloads = (r->n + r->size - 1) / r->size;
    bad = first_bad(r);
    short_for = first_short(q, payloads, &left);
    if (bad < r->n)
        note_bad(r, bad, payloads);
    if (short_for < payloads)
        note_short(r, short_for, left, payloads);
    if (bad < r->n && short_for < payloads)
        note_two(bad / r->size, short_for);
}

void print_reels(void)
{
    printf("%-52s %8s\n", "reels", "met");
    for (int i = 0; i < MEETINGS; i++)
        printf("%-52s %8lu\n", meeting_names[i], met[i]);
}

bool enough_reels(void)
{
    bool good = true;

    for (int i = 0; i < MEETINGS; i++) {
        if (met[i] < REEL_LEAST) {
            printf("reels: %s: met %lu times, fewer than %u\n", meeting_names[i], met[i], (unsigned)REEL_LEAST);
            good = false;
        }
    }
    return good;
}
