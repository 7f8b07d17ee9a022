/* cases.c: see cases.h. A third of the cases is meant to be legal, and many of the others are too. */
#include "cases.h"

#include <string.h>

#include "film_cases.h"
#include "multi_cases.h"
#include "mutate.h"
#include "pes_cases.h"
#include "reel_cases.h"

enum { MEANT_LEGAL = 35 };

/* ---- Rooms ---- */

size_t enough_room(dice *d, size_t len, size_t most)
{
    switch (below(d, 8)) {
    case 0:
        return len + 1;
    case 1:
        return len + below(d, 60);
    case 2:
        return chance(d, 10) ? most : len;
    default:
        return len;
    }
}

size_t any_room(dice *d, size_t len, size_t most)
{
    size_t room;

    switch (below(d, 10)) {
    case 0:
    case 1:
        room = len > 0 ? len - 1 : 0;
        break;
    case 2:
        room = 0;
        break;
    case 3:
        room = below(d, len + 1);
        break;
    default:
        room = enough_room(d, len, most);
        break;
    }
    return room > most ? most : room;
}

/* ---- Areas ---- */

static void one_or_two(dice *d, question *q, const area_map *map)
{
    mutate_area(d, q, map);
    if (chance(d, 40))
        mutate_area(d, q, map);
}

/* Now and then an area around the limit of 16,384 bytes, or far above it. */
static void stretch_some(dice *d, question *q, area_map *map, bool legal)
{
    if (chance(d, 98))
        return;
    if (legal)
        stretch_area(d, q, map, CAPTIONS_AREA_BYTES - below(d, 3));
    else
        stretch_area(d, q, map, chance(d, 80) ? CAPTIONS_AREA_BYTES + 3 - below(d, 6) : 40000 + below(d, 20000));
}

/* Start codes, identifiers and the bytes of which they are made, in any order behind a first start code. */
static void start_code_soup(dice *d, question *q)
{
    static const uint8_t bytes[] = {0x00, 0x00, 0x00, 0x01, 0x01, 0xB2, 0xB2, 0x03, 0x80, 0x81, 0x40, 0xFF, 0xE0, 0x09, 0x0A};
    static const uint8_t start[LAYOUT_START] = {0x00, 0x00, 0x01, 0xB2};
    static const uint8_t identifier[] = {0x47, 0x41, 0x39, 0x34, 0x03};
    size_t most = LAYOUT_START + below(d, 60);

    memcpy(q->bytes, start, LAYOUT_START);
    q->len = LAYOUT_START;
    while (q->len < most) {
        if (chance(d, 10)) {
            memcpy(q->bytes + q->len, identifier, sizeof identifier);
            q->len += chance(d, 80) ? 5 : 4;
        } else if (chance(d, 10)) {
            memcpy(q->bytes + q->len, start, LAYOUT_START);
            q->len += LAYOUT_START;
            if (chance(d, 60))
                q->bytes[q->len++] = 0x03;
        } else {
            q->bytes[q->len++] = bytes[below(d, sizeof bytes)];
        }
    }
}

static void area_case(dice *d, question *q, bool legal)
{
    area_map area, *map = &area;

    if (!legal && chance(d, 8)) {
        start_code_soup(d, q);
        return;
    }
    legal_area(d, q, kind_of(q->op), map);
    stretch_some(d, q, map, legal);
    if (!legal && chance(d, 90))
        one_or_two(d, q, map);
}

static void spoil_value(dice *d, question *q)
{
    if (takes_ga94(q->op))
        spoil_ga94(d, &q->ga94);
    else
        spoil_unit(d, &q->unit);
}

/* The value to write, of the operation's kind. */
static void value_case(dice *d, question *q, bool legal)
{
    if (takes_ga94(q->op))
        legal_ga94(d, &q->ga94);
    else
        legal_unit(d, &q->unit);
    if (legal)
        return;
    spoil_value(d, q);
    if (chance(d, 30))
        spoil_value(d, q);
}

static size_t *value_z(question *q)
{
    return takes_ga94(q->op) ? &q->ga94.z : &q->unit.z;
}

/* The unit without its stuffing. */
static size_t front_len(const question *q)
{
    return LAYOUT_START + (takes_ga94(q->op) ? layout_ga94_content_bytes(&q->ga94) : layout_content_bytes(&q->unit));
}

/* What the unit would take; 100 where it is not to be written anyway. */
static size_t unit_len(question *q)
{
    size_t n = takes_ga94(q->op) ? q->ga94.n : q->unit.n;

    if (n > CAPTIONS_RECORDS || *value_z(q) > CAPTIONS_AREA_BYTES)
        return 100;
    return front_len(q) + *value_z(q);
}

static void unit_write_case(dice *d, question *q, bool legal)
{
    value_case(d, q, legal || chance(d, 30));
    if (legal && chance(d, 2)) /* as long as a unit can be */
        *value_z(q) = CAPTIONS_AREA_BYTES - front_len(q) - below(d, 2);
    q->room = legal ? enough_room(d, unit_len(q), OUTPUT_MAX) : any_room(d, unit_len(q), OUTPUT_MAX);
}

/* z so that the new area has 16,384 bytes, give or take some. */
static void fit_to_limit(dice *d, question *q, size_t around, bool legal)
{
    size_t front = around + front_len(q), more = legal ? 0 : 1 + below(d, 2);

    if (front + 3 < CAPTIONS_AREA_BYTES)
        *value_z(q) = CAPTIONS_AREA_BYTES - front - below(d, 3) + more;
}

static void replace_case(dice *d, question *q, bool legal)
{
    area_map map;
    size_t around;
    bool legal_value = legal || chance(d, 40);

    legal_area(d, q, kind_of(q->op), &map);
    around = q->len;
    if (map.ours < map.count)
        around -= map.starts[map.ours + 1] - map.starts[map.ours];
    value_case(d, q, legal_value);
    if (legal_value && chance(d, 2))
        fit_to_limit(d, q, around, legal);
    q->room = legal ? enough_room(d, around + unit_len(q), OUTPUT_MAX) : any_room(d, around + unit_len(q), OUTPUT_MAX);
    if (legal)
        return;
    if (chance(d, 2))
        stretch_area(d, q, &map, CAPTIONS_AREA_BYTES + 2 - below(d, 5));
    if (chance(d, 50))
        one_or_two(d, q, &map);
}

/* ---- Packets ---- */

static void packet_read_case(dice *d, question *q, bool legal)
{
    legal_packet(d, &q->packet);
    q->len = layout_packet(&q->packet, q->words);
    if (legal)
        return;
    mutate_packet(d, q);
    if (chance(d, 40))
        mutate_packet(d, q);
}

static void packet_write_case(dice *d, question *q, bool legal)
{
    uint16_t words[CAPTIONS_PACKET_WORDS];
    size_t len;

    legal_packet(d, &q->packet);
    len = layout_packet(&q->packet, words);
    q->room = legal ? enough_room(d, len, WORDS_MAX) : any_room(d, len, WORDS_MAX);
    if (legal || chance(d, 30))
        return;
    spoil_packet(d, &q->packet);
    if (chance(d, 30))
        spoil_packet(d, &q->packet);
}

/* ---- Payloads ---- */

/* Every byte of a payload is legal, so that only its length can be wrong. */
static void payload_read_case(dice *d, question *q, bool legal)
{
    static const size_t lengths[] = {0, 1, 2, 5, 6, 7, 1451, 1455, 1456, 1457, 1461, 2037, 65535, 65536};
    size_t laid_out;

    legal_payload(d, &q->payload);
    laid_out = q->len = layout_payload(&q->payload, q->bytes);
    if (legal)
        return;
    if (chance(d, 10))
        q->len = lengths[below(d, sizeof lengths / sizeof *lengths)];
    else
        q->len = below(d, chance(d, 90) ? 60 : 1500);
    for (size_t i = 0; i < q->len; i++)
        q->bytes[i] = (uint8_t)(i % 8 == 0 || i >= laid_out ? roll(d) : q->bytes[i]);
}

static void payload_write_case(dice *d, question *q, bool legal)
{
    legal_payload(d, &q->payload);
    q->room = legal ? enough_room(d, 1 + 5 * q->payload.m, OUTPUT_MAX) : any_room(d, 1 + 5 * q->payload.m, OUTPUT_MAX);
    if (legal || chance(d, 30))
        return;
    spoil_payload(d, &q->payload);
    if (chance(d, 30))
        spoil_payload(d, &q->payload);
}

static void payload_reel_case(dice *d, question *q, bool legal)
{
    legal_reel(d, &q->reel);
    q->as_bytes = chance(d, 50);
    q->room = enough_room(d, reel_bytes(&q->reel, reel_payloads(&q->reel)), OUTPUT_MAX);
    if (legal || chance(d, 15))
        return;
    spoil_reel(d, q);
    if (chance(d, 50))
        spoil_reel(d, q);
}

/* ---- All ---- */

static operation some_operation(dice *d)
{
    static const operation often[] = {AREA_READ,    AREA_READ,    AREA_READ,    AREA_READ,    AREA_REPLACE, AREA_REPLACE,
                                      AREA_REPLACE, UNIT_WRITE,   UNIT_WRITE,   GA94_READ,    GA94_READ,    GA94_READ,
                                      GA94_REPLACE, GA94_REPLACE, GA94_REPLACE, GA94_WRITE,   GA94_WRITE,   PACKET_READ,
                                      PACKET_READ,  PACKET_READ,  PACKET_WRITE, PACKET_WRITE, PAYLOAD_READ, PAYLOAD_WRITE,
                                      FILM_RUN,     FILM_RUN,     PAYLOAD_REEL, PAYLOAD_REEL, PES_READ,     PES_READ,
                                      PES_READ,     PES_READ,     PES_WRITE,    PES_WRITE,    PES_CONVERT,  PES_CONVERT,
                                      PES_CONVERT_VALUE,          PES_CONVERT_VALUE,          MULTI_READ,   MULTI_READ,
                                      MULTI_READ,   MULTI_READ,   MULTI_WRITE,  MULTI_WRITE,  MULTI_WRITE,  MULTI_WRITE};

    return often[below(d, sizeof often / sizeof *often)];
}

void make_case(dice *d, question *q)
{
    bool legal;

    q->op = some_operation(d);
    q->fill = (uint16_t)roll(d);
    q->at = chance(d, 50) ? AT_END : AT_FRONT;
    q->len = 0;
    legal = chance(d, MEANT_LEGAL);
    if (q->op == AREA_READ || q->op == GA94_READ)
        area_case(d, q, legal);
    else if (q->op == UNIT_WRITE || q->op == GA94_WRITE)
        unit_write_case(d, q, legal);
    else if (q->op == AREA_REPLACE || q->op == GA94_REPLACE)
        replace_case(d, q, legal);
    else if (q->op == PACKET_READ)
        packet_read_case(d, q, legal);
    else if (q->op == PACKET_WRITE)
        packet_write_case(d, q, legal);
    else if (q->op == MULTI_READ || q->op == MULTI_WRITE)
        multi_case(d, q, legal);
    else if (q->op == PES_READ || q->op == PES_WRITE || q->op == PES_CONVERT || q->op == PES_CONVERT_VALUE)
        pes_case(d, q, legal);
    else if (q->op == PAYLOAD_READ)
        payload_read_case(d, q, legal);
    else if (q->op == PAYLOAD_WRITE)
        payload_write_case(d, q, legal);
    else if (q->op == PAYLOAD_REEL)
        payload_reel_case(d, q, legal);
    else
        film_case(d, &q->film, legal);
    q->nulls = chance(d, 50);
}
