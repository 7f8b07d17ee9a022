/* mutate.c: areas and packets. See mutate.h; values are in spoil.c. */
#include "mutate.h"

#include <string.h>

/* ---- Changes to a row of bytes ---- */

static void drop(question *q, size_t at, size_t count)
{
    if (at >= q->len)
        return;
    if (count > q->len - at)
        count = q->len - at;
    memmove(q->bytes + at, q->bytes + at + count, q->len - at - count);
    q->len -= count;
}

static void insert(question *q, size_t at, const uint8_t *bytes, size_t count)
{
    if (at > q->len || q->len + count > INPUT_MAX)
        return;
    memmove(q->bytes + at + count, q->bytes + at, q->len - at);
    memcpy(q->bytes + at, bytes, count);
    q->len += count;
}

static void insert_byte(question *q, size_t at, uint8_t byte)
{
    insert(q, at, &byte, 1);
}

static void flip_bit(question *q, size_t bit)
{
    if (bit / 8 < q->len)
        q->bytes[bit / 8] ^= (uint8_t)(0x80 >> bit % 8);
}

static void exchange_bytes(dice *d, question *q)
{
    size_t a = below(d, q->len), b = below(d, q->len);
    uint8_t byte = q->bytes[a];

    q->bytes[a] = q->bytes[b];
    q->bytes[b] = byte;
}

/* One change that knows nothing of units. */
static void mutate_bytes(dice *d, question *q)
{
    size_t at = q->len == 0 ? 0 : below(d, q->len);

    if (q->len == 0) {
        insert_byte(q, 0, any_byte(d));
        return;
    }
    switch (below(d, 6)) {
    case 0:
        flip_bit(q, 8 * at + below(d, 8));
        break;
    case 1:
        q->bytes[at] = any_byte(d);
        break;
    case 2:
        drop(q, at, 1);
        break;
    case 3:
        insert_byte(q, at, any_byte(d));
        break;
    case 4:
        q->len = at;
        break;
    default:
        exchange_bytes(d, q);
        break;
    }
}

/* ---- Changes to units ---- */

static void duplicate_unit(dice *d, question *q, const area_map *map)
{
    static uint8_t copy[INPUT_MAX];
    size_t unit = chance(d, 60) && map->ours < map->count ? map->ours : below(d, map->count);
    size_t len = map->starts[unit + 1] - map->starts[unit];

    if (map->starts[unit + 1] > q->len)
        return;
    memcpy(copy, q->bytes + map->starts[unit], len);
    insert(q, map->starts[below(d, map->count + 1)], copy, len);
}

/* Puts a unit to the end of the area. */
static void move_unit(dice *d, question *q, const area_map *map)
{
    static uint8_t copy[INPUT_MAX];
    size_t unit = below(d, map->count);
    size_t len = map->starts[unit + 1] - map->starts[unit];

    if (map->starts[unit + 1] > q->len)
        return;
    memcpy(copy, q->bytes + map->starts[unit], len);
    drop(q, map->starts[unit], len);
    insert(q, q->len, copy, len);
}

/* Whether a unit's body begins with 03 and has more. */
static bool begins_with_03(const question *q, const area_map *map, size_t unit)
{
    size_t body = map->starts[unit] + LAYOUT_START, end = map->starts[unit + 1];

    return body + 1 < end && end <= q->len && q->bytes[body] == 0x03;
}

/* The byte behind a unit's 03, which tells a caption unit from a data group. Or the unit is cut behind the 03. */
static void change_type(dice *d, question *q, const area_map *map)
{
    static const uint8_t telling[] = {0x09, 0x0A, 0x09, 0x0A, 0x08, 0x0B, 0x00, 0x01, 0x81, 0x89, 0x8A};
    size_t unit = below(d, map->count), second;

    for (size_t i = 0; i < map->count && !begins_with_03(q, map, unit); i++)
        unit = (unit + 1) % map->count;
    if (!begins_with_03(q, map, unit))
        return;
    second = map->starts[unit] + LAYOUT_START + 1;
    if (chance(d, 25))
        drop(q, second, map->starts[unit + 1] - second);
    else
        q->bytes[second] = telling[below(d, sizeof telling)];
}

/* A 00 00 01 without its B2, somewhere or at the very end. */
static void break_start(dice *d, question *q, const area_map *map)
{
    static const uint8_t prefix[] = {0x00, 0x00, 0x01, 0xB3};

    size_t unit = map->starts[below(d, map->count)], front = 1 + below(d, 4);

    if (chance(d, 50))
        insert(q, chance(d, 50) ? q->len : unit, prefix, front);
    else if (map->starts[map->count - 1] + 3 < q->len)
        q->bytes[unit + 3] = any_byte(d);
}

/* ---- Changes inside our unit ---- */

static size_t relay_caption(dice *d, const area_map *map, uint8_t *to)
{
    unit_value value = map->value;

    spoil_unit(d, &value);
    value.n %= 32;
    value.z %= 400;
    value.vbi_data_flag = value.n > 0 ? 1 : value.vbi_data_flag & 1;
    return layout_unit(&value, to);
}

static size_t relay_ga94(dice *d, const area_map *map, uint8_t *to)
{
    ga94_value value = map->ga94;

    spoil_ga94(d, &value);
    value.n %= 32;
    value.z %= 400;
    return layout_ga94(&value, to);
}

/* The unit laid out again from a value with one number wrong, as far as its bits can hold that number. */
static void relay_ours(dice *d, question *q, const area_map *map)
{
    static uint8_t unit[LAYOUT_UNIT_MAX];
    size_t start = map->starts[map->ours], len = map->starts[map->ours + 1] - start;
    size_t relaid = map->kind == GA94_KIND ? relay_ga94(d, map, unit) : relay_caption(d, map, unit);

    drop(q, start, len);
    insert(q, start, unit, relaid);
}

/* A bit of the count of sampled video, of the alignment, or of what follows. */
static void flip_behind_constructs(dice *d, question *q, const area_map *map, size_t body)
{
    size_t bit = LAYOUT_CONSTRUCTS + LAYOUT_CONSTRUCT * map->value.n;

    flip_bit(q, 8 * body + bit + below(d, 16));
}

/* A bit of one construct that is no data: priority, field, line or marker. */
static void flip_in_construct(dice *d, question *q, const area_map *map, size_t body)
{
    static const uint8_t telling[] = {0, 1, 2, 3, 4, 5, 6, 7, 8, 25};
    size_t n = map->value.n, bit = telling[below(d, sizeof telling)];

    if (n > 0)
        flip_bit(q, 8 * body + LAYOUT_CONSTRUCTS + LAYOUT_CONSTRUCT * below(d, n) + bit);
}

/* A bit of what no value holds: a construct's marker bits, or the closing FF and the byte behind it. */
static void flip_fixed_ga94(dice *d, question *q, const area_map *map, size_t body)
{
    bool marker = map->ga94.n > 0 && chance(d, 60);
    size_t triples = marker ? below(d, map->ga94.n) : map->ga94.n;

    flip_bit(q, 8 * (body + LAYOUT_GA94_FIRST + LAYOUT_GA94_TRIPLE * triples) + below(d, marker ? 5 : 16));
}

/* A bit in front of the constructs: identifier, type, flags and cc_count, em_data. The third flag is often the one. */
static void flip_front_ga94(dice *d, question *q, size_t body)
{
    flip_bit(q, 8 * body + (chance(d, 50) ? 8 * LAYOUT_GA94_FLAGS + 2 : below(d, 8 * LAYOUT_GA94_FIRST)));
}

static void flip_ours(dice *d, question *q, const area_map *map, size_t body)
{
    bool first = chance(d, 33);

    if (map->kind == GA94_KIND && first)
        flip_front_ga94(d, q, body);
    else if (map->kind == GA94_KIND)
        flip_fixed_ga94(d, q, map, body);
    else if (first)
        flip_behind_constructs(d, q, map, body);
    else
        flip_in_construct(d, q, map, body);
}

/* Cut short; what follows stays whole. GA94 is often cut before its constructs, also with its third flag set. */
static void cut_ours(dice *d, question *q, const area_map *map, size_t body, size_t end)
{
    size_t at = body + below(d, end - body);

    if (map->kind == GA94_KIND && chance(d, 40)) {
        at = body + LAYOUT_GA94_FLAGS - 1 + below(d, 4);
        if (chance(d, 30))
            q->bytes[body + LAYOUT_GA94_FLAGS] |= 0x20;
    }
    drop(q, at, end - at);
}

static void mutate_ours(dice *d, question *q, const area_map *map)
{
    size_t start = map->starts[map->ours], end = map->starts[map->ours + 1], body = start + LAYOUT_START;

    if (end > q->len)
        return;
    switch (below(d, 7)) {
    case 0:
        relay_ours(d, q, map);
        break;
    case 1:
    case 2:
    case 3:
        flip_ours(d, q, map, body);
        break;
    case 4: /* a piece taken out, of what follows too */
        drop(q, body + below(d, end - body), end - body);
        break;
    case 5:
        cut_ours(d, q, map, body, end);
        break;
    default:
        flip_bit(q, 8 * body + below(d, 8 * (end - body)));
        break;
    }
}

void mutate_area(dice *d, question *q, const area_map *map)
{
    bool ours = map->ours < map->count;
    unsigned sort = (unsigned)below(d, 100);

    if (map->count == 0 || sort < 28)
        mutate_bytes(d, q);
    else if (ours && sort < 75)
        mutate_ours(d, q, map);
    else if (sort < 82)
        duplicate_unit(d, q, map);
    else if (sort < 86)
        move_unit(d, q, map);
    else if (sort < 93)
        change_type(d, q, map);
    else
        break_start(d, q, map);
}

/* ---- Packets ---- */

static void mend_words(dice *d, question *q)
{
    if (q->len < 20)
        return;
    for (size_t i = 3; i < q->len - 1 && !chance(d, 1); i++)
        q->words[i] = layout_word((uint8_t)q->words[i]);
    if (chance(d, 70))
        layout_sdp_checksum(q->words, q->len);
    if (chance(d, 70))
        layout_cs(q->words, q->len);
}

/* A word that is always the same: the head, format and descriptors, the front of a structure, the footer. */
static size_t telling_word(dice *d, const question *q)
{
    size_t first = LAYOUT_STRUCTURES + LAYOUT_STRUCTURE * below(d, 6), structure = first + below(d, 3);

    if (chance(d, 50))
        return below(d, LAYOUT_STRUCTURES);
    if (chance(d, 50) && structure < q->len)
        return structure;
    return q->len >= 5 ? q->len - 5 + below(d, 5) : 0;
}

static void change_length(dice *d, question *q)
{
    static const size_t lengths[] = {0, 1, 18, 19, 20, 21, 64, 65, 66, 110, 155, 200, 244, 245, 246, 247, 300, 999};
    size_t len = lengths[below(d, sizeof lengths / sizeof *lengths)];

    if (chance(d, 40) && q->len >= 2 && q->len + 2 < WORDS_MAX)
        len = q->len - 2 + below(d, 5);
    else if (chance(d, 10))
        len = below(d, 20);

    for (size_t i = q->len; i < len; i++)
        q->words[i] = layout_word(any_byte(d));
    q->len = len;
    if (chance(d, 70) && len >= 20)
        q->words[5] = layout_word((uint8_t)(len - 7));
    if (chance(d, 60) && len >= 20)
        q->words[8] = q->words[5];
}

/* A descriptor emptied, filled, or with a line that none may have; another number of structures. */
static void change_descriptor(dice *d, question *q)
{
    static const uint8_t telling[] = {0x00, 0x80, 0x20, 0x01, 0x05, 0x06, 0x16, 0x17, 0x1F, 0x9F, 0x85};
    uint8_t descriptor = chance(d, 50) ? telling[below(d, sizeof telling)] : (uint8_t)roll(d);

    q->words[LAYOUT_DESCRIPTORS + below(d, CAPTIONS_SLOTS)] = layout_word(descriptor);
}

void mutate_packet(dice *d, question *q)
{
    size_t at = chance(d, 60) ? telling_word(d, q) : q->len == 0 ? 0 : below(d, q->len);

    switch (below(d, 8)) {
    case 0:
        q->words[at] ^= (uint16_t)(1u << below(d, 16));
        break;
    case 1:
        q->words[at] = (uint16_t)roll(d);
        break;
    case 2:
    case 3:
        q->words[at] = layout_word(any_byte(d));
        break;
    case 4:
        q->words[at] ^= (uint16_t)(1u << below(d, 10));
        break;
    case 5:
        change_length(d, q);
        break;
    case 6:
        change_descriptor(d, q);
        break;
    default: /* DC or LENGTH alone */
        at = chance(d, 50) ? 5 : 8;
        q->words[at] = layout_word((uint8_t)(13 + LAYOUT_STRUCTURE * below(d, 6)));
        break;
    }
    if (chance(d, 65))
        mend_words(d, q);
}
