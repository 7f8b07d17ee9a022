/* generate.c: see generate.h. */
#include "generate.h"

#include <string.h>

#include "model_area.h"

/* ---- Dice ---- */

uint64_t roll(dice *d)
{
    uint64_t x = d->state += 0x9E3779B97F4A7C15u;

    x = (x ^ x >> 30) * 0xBF58476D1CE4E5B9u;
    x = (x ^ x >> 27) * 0x94D049BB133111EBu;
    return x ^ x >> 31;
}

size_t below(dice *d, size_t limit)
{
    return (size_t)(roll(d) % limit);
}

bool chance(dice *d, unsigned percent)
{
    return below(d, 100) < percent;
}

uint8_t any_byte(dice *d)
{
    static const uint8_t telling[] = {0x00, 0x00, 0x00, 0x01, 0x02, 0x03, 0x04, 0xB2, 0x55, 0x27, 0x74, 0x51, 0x15, 0x80, 0xFF};

    if (chance(d, 50))
        return (uint8_t)roll(d);
    return telling[below(d, sizeof telling)];
}

static void any_bytes(dice *d, void *to, size_t len)
{
    uint8_t *bytes = to;

    while (len-- > 0)
        *bytes++ = (uint8_t)roll(d);
}

/* ---- Caption units ---- */

/* How many records, with 0, 1 and 31 often. */
static size_t some_n(dice *d)
{
    switch (below(d, 6)) {
    case 0:
        return below(d, 2);
    case 1:
        return CAPTIONS_RECORDS;
    case 2:
        return below(d, CAPTIONS_RECORDS + 1);
    default:
        return below(d, 8);
    }
}

static void any_data(dice *d, captions_record *record)
{
    bool zero = chance(d, 25); /* both data bytes 0 give the longest run of zeros in legal content */

    record->cc_data_1 = zero ? 0 : any_byte(d);
    record->cc_data_2 = zero ? 0 : any_byte(d);
}

/* n places out of the lines of some fields, in order, with at most four of priority 0 in each field. */
static void legal_records(dice *d, unit_value *to)
{
    size_t first = 1 + below(d, 3), last = first + below(d, 4 - first);
    size_t places = 32 * (last - first + 1), missing = to->n;
    captions_record *record = to->records;
    bool many_zeros = chance(d, 50);

    for (size_t field = first; field <= last; field++) {
        unsigned zeros = 0;
        for (size_t line = 0; line < 32; line++, places--) {
            if (below(d, places) >= missing)
                continue;
            missing--;
            record->field_number = (uint8_t)field;
            record->line_offset = (uint8_t)line;
            record->cc_priority = many_zeros ? 0 : (uint8_t)below(d, 4);
            if (record->cc_priority == 0 && ++zeros > 4)
                record->cc_priority = (uint8_t)(1 + below(d, 3));
            any_data(d, record++);
        }
    }
}

void legal_unit(dice *d, unit_value *to)
{
    static const uint32_t telling[] = {0, 64, 127, 4, 5, 5};

    any_bytes(d, to->records, sizeof to->records);
    to->reserved = chance(d, 50) ? telling[below(d, 6)] : (uint32_t)below(d, 128);
    to->vbi_data_flag = !chance(d, 10);
    if (to->reserved == 4 || to->reserved == 5)
        to->vbi_data_flag = to->reserved - 4; /* 08 and 0B are legal behind 03; 09 and 0A between them are not */
    to->n = to->vbi_data_flag == 0 ? 0 : some_n(d);
    to->z = chance(d, 60) ? 0 : below(d, chance(d, 80) ? 8 : 300);
    legal_records(d, to);
}

/* ---- GA94 units ---- */

void legal_ga94(dice *d, ga94_value *to)
{
    any_bytes(d, to->records, sizeof to->records);
    to->process_em_data_flag = (uint32_t)below(d, 2);
    to->process_cc_data_flag = (uint32_t)below(d, 2);
    to->additional_data_flag = 0;
    to->em_data = any_byte(d);
    to->n = some_n(d);
    to->z = chance(d, 60) ? 0 : below(d, chance(d, 80) ? 8 : 300);
    for (size_t i = 0; i < to->n; i++) {
        captions_ga94_record *record = &to->records[i];
        bool zero = chance(d, 25); /* all four numbers 0 give the longest run of zeros in legal content */
        record->cc_valid = zero && chance(d, 50) ? 0 : (uint8_t)below(d, 2);
        record->cc_type = zero && chance(d, 50) ? 0 : (uint8_t)below(d, 4);
        record->cc_data_1 = zero ? 0 : any_byte(d);
        record->cc_data_2 = zero ? 0 : any_byte(d);
    }
}

/* ---- Areas ---- */

unit_kind kind_of(operation op)
{
    return op == GA94_READ || op == GA94_WRITE || op == GA94_REPLACE ? GA94_KIND : SCTE20_KIND;
}

unit_kind other_kind(unit_kind kind)
{
    return kind == GA94_KIND ? SCTE20_KIND : GA94_KIND;
}

static const uint8_t identifier[] = {0x47, 0x41, 0x39, 0x34, 0x03};

/* A foreign body may hold anything but a start code. It may not begin as one of our kind: as a caption unit or GA94 does. */
static void make_foreign(unit_kind kind, uint8_t *body, size_t len)
{
    if (kind == SCTE20_KIND && len > 0 && body[0] == 0x03 && !model_is_data_group(body, len))
        body[0] = 0x02;
    if (kind == GA94_KIND && len >= 4 && memcmp(body, identifier, len > 4 ? 5 : 4) == 0)
        body[len > 4 ? 4 : 3] = 0x05;
    for (size_t i = 2; i < len; i++)
        if (body[i - 2] == 0x00 && body[i - 1] == 0x00 && body[i] == 0x01)
            body[i] = 0x02;
}

/* In front of a body: bytes that other user data begins with, or some of GA94's, often the identifier with another type. */
static void foreign_front(dice *d, uint8_t *body, size_t len)
{
    size_t alike = chance(d, 50) ? 4 : 1 + below(d, sizeof identifier);

    if (chance(d, 30))
        memcpy(body, identifier, alike < len ? alike : len);
    else if (len > 0 && chance(d, 60))
        body[0] = (const uint8_t[]){0x02, 0x04, 0x00, 0x03, 0x13}[below(d, 5)];
}

static size_t foreign_body(dice *d, unit_kind kind, uint8_t *body)
{
    static const uint8_t near_start[] = {0x00, 0x00, 0x00, 0x01, 0xB2, 0x03};
    size_t len = chance(d, 20) ? 0 : 1 + below(d, chance(d, 80) ? 12 : 300);
    size_t tail = chance(d, 40) ? below(d, len + 1) : 0;
    unsigned style = (unsigned)below(d, 3);

    for (size_t i = 0; i < len; i++)
        body[i] = style == 0 ? 0x00 : style == 1 ? near_start[below(d, sizeof near_start)] : any_byte(d);
    memset(body + len - tail, 0, tail);
    foreign_front(d, body, len);
    make_foreign(kind, body, len);
    return len;
}

static size_t legal_of_kind(dice *d, unit_kind kind, area_map *map, uint8_t *to)
{
    if (kind == GA94_KIND) {
        legal_ga94(d, &map->ga94);
        return layout_ga94(&map->ga94, to);
    }
    legal_unit(d, &map->value);
    return layout_unit(&map->value, to);
}

/* A unit of the other kind, in many cases cut short or with a wrong bit: here all of it is foreign. */
static size_t unit_of_other_kind(dice *d, unit_kind kind, uint8_t *to)
{
    area_map unused;
    uint8_t *body = to + LAYOUT_START;
    size_t len = legal_of_kind(d, other_kind(kind), &unused, to) - LAYOUT_START;

    if (chance(d, 20))
        len = 1 + below(d, len);
    if (chance(d, 20)) {
        size_t bit = below(d, 8 * len);
        body[bit / 8] ^= (uint8_t)(0x80 >> bit % 8);
    }
    make_foreign(kind, body, len);
    return LAYOUT_START + len;
}

static const uint8_t start[LAYOUT_START] = {0x00, 0x00, 0x01, 0xB2};

/*
 * A unit of data groups, each 03, then 09 or 0A, then two bytes (003, Table 1); often cut short. Nothing behind the first type
 * is looked at, so that it may be a caption unit's content too, legal but for that byte.
 */
static size_t group_unit(dice *d, unit_kind kind, uint8_t *to)
{
    static const size_t lengths[] = {2, 2, 3, 4, 4, 5, 6, 8, 12, 40};
    size_t len = lengths[below(d, sizeof lengths / sizeof *lengths)];
    uint8_t *body = to + LAYOUT_START;
    unit_value value;

    memcpy(to, start, LAYOUT_START);
    for (size_t i = 0; i < len; i++)
        body[i] = i % 4 == 0 ? 0x03 : i % 4 == 1 ? (uint8_t)(0x09 + below(d, 2)) : any_byte(d);
    if (chance(d, 30)) {
        legal_unit(d, &value);
        len = layout_unit(&value, to) - LAYOUT_START;
        body[1] = (uint8_t)(0x09 + below(d, 2));
    }
    make_foreign(kind, body, len);
    return LAYOUT_START + len;
}

/* `groups`: how many of a hundred are data groups. */
static size_t foreign_unit(dice *d, unit_kind kind, unsigned groups, uint8_t *to)
{
    if (chance(d, groups))
        return group_unit(d, kind, to);
    if (chance(d, 30))
        return unit_of_other_kind(d, kind, to);
    memcpy(to, start, LAYOUT_START);
    return LAYOUT_START + foreign_body(d, kind, to + LAYOUT_START);
}

void legal_area(dice *d, question *q, unit_kind kind, area_map *map)
{
    unsigned groups = chance(d, 15) ? 90 : 15;

    q->len = 0;
    map->kind = kind;
    map->count = chance(d, 2) ? 0 : 1 + below(d, chance(d, 70) ? 4 : AREA_UNITS_MAX);
    map->ours = chance(d, 85) && map->count > 0 ? below(d, map->count) : map->count;
    for (size_t i = 0; i < map->count; i++) {
        map->starts[i] = q->len;
        if (i == map->ours)
            q->len += legal_of_kind(d, kind, map, q->bytes + q->len);
        else
            q->len += foreign_unit(d, kind, groups, q->bytes + q->len);
    }
    map->starts[map->count] = q->len;
}

void stretch_area(dice *d, question *q, area_map *map, size_t len)
{
    size_t more = len > q->len ? len - q->len : 0;
    size_t unit, body, end;

    if (map->count == 0)
        return;
    unit = below(d, map->count);
    body = map->starts[unit] + LAYOUT_START;
    end = map->starts[unit + 1];
    memmove(q->bytes + end + more, q->bytes + end, q->len - end);
    memset(q->bytes + end, 0, more);
    if (unit == map->ours) {
        *(map->kind == GA94_KIND ? &map->ga94.z : &map->value.z) += more; /* zero bytes behind the content are stuffing */
    } else if (chance(d, 50)) {
        for (size_t i = 0; i < more; i++)
            q->bytes[end + i] = any_byte(d);
        make_foreign(map->kind, q->bytes + body, end + more - body);
    }
    q->len += more;
    for (size_t i = unit + 1; i <= map->count; i++)
        map->starts[i] += more;
}

/* ---- Packets ---- */

static void legal_slot(dice *d, unsigned percent_full, captions_slot *slot, captions_row *row)
{
    memset(slot, 0, sizeof *slot);
    memset(row, 0, sizeof *row);
    if (!chance(d, percent_full))
        return;
    slot->full = 1;
    slot->line = (uint8_t)(chance(d, 20) ? 0 : 6 + below(d, 17));
    slot->reserved = (uint8_t)below(d, 4);
    slot->field = (uint8_t)below(d, 2);
    if (slot->line == 0 && slot->reserved == 0)
        slot->field = 1; /* descriptor 80 is no empty slot */
    for (size_t i = 0; i < CAPTIONS_ROW_BYTES && !chance(d, 1); i++)
        row->bytes[i] = any_byte(d);
}

void legal_packet(dice *d, packet_value *to)
{
    static const uint32_t telling[] = {0, 1, 0xFF, 0x100, 0x7474, 0xFFFF};
    unsigned percent_full = chance(d, 15) ? 100 : 50; /* five structures often enough for each of their words to be wrong */

    to->counter = chance(d, 30) ? telling[below(d, 6)] : (uint32_t)below(d, 65536);
    for (size_t i = 0; i < CAPTIONS_SLOTS; i++)
        legal_slot(d, percent_full, &to->slots[i], &to->rows[i]);
}

/* ---- Payloads ---- */

static size_t some_m(dice *d)
{
    switch (below(d, 8)) {
    case 0:
        return below(d, 2);
    case 1:
        return CAPTIONS_ACCESS_UNITS - below(d, 2);
    case 2:
        return below(d, CAPTIONS_ACCESS_UNITS + 1);
    default:
        return below(d, 20);
    }
}

captions_access_unit legal_access_unit(dice *d)
{
    uint64_t bits = roll(d);

    return (captions_access_unit){bits & 1, bits >> 1 & 1, bits >> 2 & 63, bits >> 8 & 255, bits >> 16 & 255, bits >> 24 & 255,
                                  bits >> 32 & 255};
}

void legal_payload(dice *d, payload_value *to)
{
    to->flags = any_byte(d);
    to->m = some_m(d);
    memset(to->units, 0xFF, sizeof to->units); /* what no unit may hold, behind the m units */
    for (size_t i = 0; i < to->m; i++)
        to->units[i] = legal_access_unit(d);
}
