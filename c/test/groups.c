/* groups.c: see groups.h. */
#include "groups.h"

#include <stdio.h>

#include "model_area.h"

enum { GROUPS_LEAST = 20 };

typedef enum meeting {
    ALL_OF_AREA,
    WITHOUT_CAPTION,
    BEFORE_CAPTION,
    BEHIND_CAPTION,
    TYPE_LAST, /* the first of four */
    CAPTION_REFUSED = TYPE_LAST + 4,
    TWO_CAPTIONS,
    APPENDED,
    SECOND_08, /* the first of four */
    AREA_REFUSED = SECOND_08 + 4,
    RECORD_WRONG,
    TOO_LONG,
    NO_ROOM,
    MEETINGS
} meeting;

static const char *const meeting_names[MEETINGS] = {
    "it is all of the area",
    "no caption unit in the area",
    "before a caption unit",
    "behind a caption unit",
    "ends with the type",
    "one byte behind the type",
    "two bytes behind the type",
    "more bytes behind the type",
    "beside a caption unit that is refused",
    "beside two caption units",
    "a caption unit is put behind it",
    "08 to write: reserved 4, flag 0",
    "09 to write: reserved 4, flag 1",
    "0A to write: reserved 5, flag 0",
    "0B to write: reserved 5, flag 1",
    "09 or 0A to write, the area is refused",
    "09 or 0A to write, a record is wrong",
    "09 or 0A to write, the result would be too long",
    "09 or 0A to write, the room would be too short",
};

static unsigned long met[MEETINGS];

/* The units of an area with all its start codes. `number` is what reading it gives. */
static void note_units(const question *q, uint64_t number, bool written)
{
    size_t units = 0, groups = 0, captions = 0, before = 0;

    for (size_t at = 0, end; at < q->len; at = end, units++) {
        const uint8_t *body = q->bytes + at + LAYOUT_START;
        size_t len;
        end = model_unit_end(q->bytes, q->len, at);
        len = end - at - LAYOUT_START;
        if (model_is_data_group(body, len)) {
            groups++;
            before += captions == 0;
            met[TYPE_LAST + (len < 5 ? len - 2 : 3)]++;
        } else if (len > 0 && body[0] == 0x03) {
            captions++;
        }
    }
    if (groups == 0)
        return;
    met[ALL_OF_AREA] += units == 1;
    met[WITHOUT_CAPTION] += captions == 0;
    met[BEFORE_CAPTION] += captions > 0 && before > 0;
    met[BEHIND_CAPTION] += captions > 0 && before < groups;
    met[CAPTION_REFUSED] += captions == 1 && number != 0;
    met[TWO_CAPTIONS] += captions > 1;
    met[APPENDED] += captions == 0 && written;
}

/* What the call would be refused with if the reserved bits were others. */
static uint64_t refused_anyhow(question *q)
{
    static outcome otherwise;
    uint32_t reserved = q->unit.reserved;

    q->unit.reserved = 64;
    ask(&model_calls, q, SPOIL_NOTHING, &otherwise);
    q->unit.reserved = reserved;
    return otherwise.numbers[0];
}

/* The byte behind 03 that a value to write makes. */
static void note_second_byte(question *q, bool area_refused)
{
    uint32_t second = 2 * q->unit.reserved + q->unit.vbi_data_flag;
    uint64_t anyhow;

    if (q->unit.reserved < 4 || q->unit.reserved > 5 || q->unit.vbi_data_flag > 1)
        return;
    met[SECOND_08 + (second - 0x08)]++;
    if (second != 0x09 && second != 0x0A)
        return;
    anyhow = refused_anyhow(q);
    met[AREA_REFUSED] += area_refused;
    met[RECORD_WRONG] += !area_refused && anyhow >= 7 && anyhow <= 9;
    met[TOO_LONG] += !area_refused && anyhow == 1;
    met[NO_ROOM] += !area_refused && anyhow == 14;
}

/* Areas without their start codes (1, 2, 3) are left out. */
void note_groups(question *q, const outcome *by_model, bool area_refused)
{
    uint64_t number = q->op == AREA_READ || area_refused ? by_model->numbers[0] : 0;

    if ((q->op == AREA_READ || q->op == AREA_REPLACE) && (number == 0 || number > 3))
        note_units(q, number, q->op == AREA_REPLACE && by_model->numbers[0] == 0);
    if (takes_unit(q->op))
        note_second_byte(q, area_refused);
}

void print_groups(void)
{
    printf("%-48s %8s\n", "data groups", "met");
    for (int i = 0; i < MEETINGS; i++)
        printf("%-48s %8lu\n", meeting_names[i], met[i]);
}

bool enough_groups(void)
{
    bool good = true;

    for (int i = 0; i < MEETINGS; i++) {
        if (met[i] < GROUPS_LEAST) {
            printf("data groups: %s: met %lu times, fewer than %u\n", meeting_names[i], met[i], (unsigned)GROUPS_LEAST);
            good = false;
        }
    }
    return good;
}
