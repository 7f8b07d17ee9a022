/* agree.c: see agree.h. */
#include "agree.h"

#include <string.h>

size_t agree_numbers[256];

/* Lent memory, one piece for each program, with the same bytes in it before a call. */
static union lent {
    uint8_t bytes[REEL_BYTES + 64];
    uint16_t words[CAPTIONS_MULTI_WORDS + 32];
    captions_record records[CAPTIONS_RECORDS + 2];
    captions_ga94_record ga94[CAPTIONS_RECORDS + 2];
    captions_row rows[CAPTIONS_SLOTS + 1];
    captions_inner inners[CAPTIONS_INNERS + 2];
    captions_data_unit data_units[CAPTIONS_PES_UNITS + 1];
    captions_access_unit units[CAPTIONS_ACCESS_UNITS + 2];
} lent[2];

/* How much of it one kind of call can reach, and some bytes more that none may change. */
static void fill(size_t bytes)
{
    uint8_t with = (uint8_t)(1 + below(255));
    memset(lent[0].bytes, with, bytes);
    memset(lent[1].bytes, with, bytes);
}

static bool same_lent(size_t bytes)
{
    return memcmp(lent[0].bytes, lent[1].bytes, bytes) == 0;
}

static bool same_refusal(captions_refusal a, captions_refusal b)
{
    agree_numbers[a.number]++;
    return a.number == b.number && a.place == b.place;
}

static bool same_written(captions_written a, captions_written b)
{
    return same_refusal(a.refusal, b.refusal) && a.len == b.len;
}

bool agree_area_read(const calls *plain, const area_input *area)
{
    fill(sizeof lent[0].records);
    captions_unit a = plain->area_read(area->bytes, area->len, lent[0].records);
    captions_unit b = library_calls.area_read(area->bytes, area->len, lent[1].records);
    return same_refusal(a.refusal, b.refusal) && a.present == b.present && a.reserved == b.reserved &&
           a.vbi_data_flag == b.vbi_data_flag && a.n == b.n && a.z == b.z && same_lent(sizeof lent[0].records);
}

/* How much of a byte output is compared: what an answer may have stored, and 64 bytes more. */
static size_t reach(size_t room)
{
    return room + 64;
}

bool agree_unit_write(const calls *plain, const unit_value *v, size_t room)
{
    fill(reach(room));
    captions_written a = plain->unit_write(v->reserved, v->flag, v->n, v->z, v->records, lent[0].bytes, room);
    captions_written b = library_calls.unit_write(v->reserved, v->flag, v->n, v->z, v->records, lent[1].bytes, room);
    return same_written(a, b) && same_lent(reach(room));
}

bool agree_area_replace(const calls *plain, const area_input *area, const unit_value *v, size_t room)
{
    fill(reach(room));
    captions_written a = plain->area_replace(area->bytes, area->len, v->reserved, v->flag, v->n, v->z, v->records,
                                                  lent[0].bytes, room);
    captions_written b = library_calls.area_replace(area->bytes, area->len, v->reserved, v->flag, v->n, v->z,
                                                    v->records, lent[1].bytes, room);
    return same_written(a, b) && same_lent(reach(room));
}

bool agree_ga94_read(const calls *plain, const area_input *area)
{
    fill(sizeof lent[0].ga94);
    captions_ga94_unit a = plain->ga94_read(area->bytes, area->len, lent[0].ga94);
    captions_ga94_unit b = library_calls.ga94_read(area->bytes, area->len, lent[1].ga94);
    return same_refusal(a.refusal, b.refusal) && a.present == b.present &&
           a.process_em_data_flag == b.process_em_data_flag && a.process_cc_data_flag == b.process_cc_data_flag &&
           a.additional_data_flag == b.additional_data_flag && a.em_data == b.em_data && a.n == b.n && a.z == b.z &&
           same_lent(sizeof lent[0].ga94);
}

bool agree_ga94_write(const calls *plain, const ga94_value *v, size_t room)
{
    fill(reach(room));
    captions_written a = plain->ga94_write(v->em_flag, v->cc_flag, v->additional, v->em_data, v->n, v->z, v->records,
                                                lent[0].bytes, room);
    captions_written b = library_calls.ga94_write(v->em_flag, v->cc_flag, v->additional, v->em_data, v->n, v->z,
                                                  v->records, lent[1].bytes, room);
    return same_written(a, b) && same_lent(reach(room));
}

bool agree_ga94_replace(const calls *plain, const area_input *area, const ga94_value *v, size_t room)
{
    fill(reach(room));
    captions_written a = plain->ga94_replace(area->bytes, area->len, v->em_flag, v->cc_flag, v->additional,
                                                  v->em_data, v->n, v->z, v->records, lent[0].bytes, room);
    captions_written b = library_calls.ga94_replace(area->bytes, area->len, v->em_flag, v->cc_flag, v->additional,
                                                    v->em_data, v->n, v->z, v->records, lent[1].bytes, room);
    return same_written(a, b) && same_lent(reach(room));
}

bool agree_packet_read(const calls *plain, const packet_input *packet)
{
    fill(sizeof lent[0].rows);
    captions_packet a = plain->packet_read(packet->words, packet->len, lent[0].rows);
    captions_packet b = library_calls.packet_read(packet->words, packet->len, lent[1].rows);
    return same_refusal(a.refusal, b.refusal) && a.counter == b.counter &&
           memcmp(a.slots, b.slots, sizeof a.slots) == 0 && same_lent(sizeof lent[0].rows);
}

bool agree_packet_write(const calls *plain, const packet_value *v, size_t room)
{
    fill(sizeof lent[0].words);
    captions_written a = plain->packet_write(v->counter, v->slots, v->rows, lent[0].words, room);
    captions_written b = library_calls.packet_write(v->counter, v->slots, v->rows, lent[1].words, room);
    return same_written(a, b) && same_lent(sizeof lent[0].words);
}

bool agree_multi_read(const calls *plain, const multi_input *multi)
{
    fill(sizeof lent[0].inners);
    captions_multi a = plain->multi_read(multi->words, multi->len, lent[0].inners);
    captions_multi b = library_calls.multi_read(multi->words, multi->len, lent[1].inners);
    return same_refusal(a.refusal, b.refusal) && a.priority == b.priority && a.n == b.n &&
           same_lent(sizeof lent[0].inners);
}

bool agree_multi_write(const calls *plain, const multi_value *v, size_t room)
{
    fill(sizeof lent[0].words);
    captions_written a = plain->multi_write(v->priority, v->inners, v->n, v->words, v->len, lent[0].words, room);
    captions_written b = library_calls.multi_write(v->priority, v->inners, v->n, v->words, v->len, lent[1].words, room);
    return same_written(a, b) && same_lent(sizeof lent[0].words);
}

bool agree_pes_read(const calls *plain, const pes_input *pes)
{
    fill(sizeof lent[0].data_units);
    captions_pes a = plain->pes_read(pes->bytes, pes->len, lent[0].data_units);
    captions_pes b = library_calls.pes_read(pes->bytes, pes->len, lent[1].data_units);
    return same_refusal(a.refusal, b.refusal) && a.data_identifier == b.data_identifier && a.n == b.n &&
           same_lent(sizeof lent[0].data_units);
}

bool agree_pes_write(const calls *plain, const pes_value *v, size_t room)
{
    fill(reach(room));
    captions_written a = plain->pes_write(v->data_identifier, v->n, v->units, lent[0].bytes, room);
    captions_written b = library_calls.pes_write(v->data_identifier, v->n, v->units, lent[1].bytes, room);
    return same_written(a, b) && same_lent(reach(room));
}

bool agree_pes_convert(const calls *plain, const packet_input *packet, size_t room)
{
    fill(reach(room));
    captions_written a = plain->pes_convert(packet->words, packet->len, lent[0].bytes, room);
    captions_written b = library_calls.pes_convert(packet->words, packet->len, lent[1].bytes, room);
    return same_written(a, b) && same_lent(reach(room));
}

bool agree_pes_convert_value(const calls *plain, const packet_value *v, size_t room)
{
    fill(reach(room));
    captions_written a = plain->pes_convert_value(v->counter, v->slots, v->rows, lent[0].bytes, room);
    captions_written b = library_calls.pes_convert_value(v->counter, v->slots, v->rows, lent[1].bytes, room);
    return same_written(a, b) && same_lent(reach(room));
}

bool agree_payload_read(const calls *plain, const payload_input *payload)
{
    fill(sizeof lent[0].units);
    captions_payload a = plain->payload_read(payload->bytes, payload->len, lent[0].units);
    captions_payload b = library_calls.payload_read(payload->bytes, payload->len, lent[1].units);
    return same_refusal(a.refusal, b.refusal) && a.flags == b.flags && a.m == b.m && same_lent(sizeof lent[0].units);
}

bool agree_payload_write(const calls *plain, const payload_value *v, size_t room)
{
    fill(reach(room));
    captions_written a = plain->payload_write(v->flags, v->m, v->units, lent[0].bytes, room);
    captions_written b = library_calls.payload_write(v->flags, v->m, v->units, lent[1].bytes, room);
    return same_written(a, b) && same_lent(reach(room));
}

bool agree_reel_write(const calls *plain, const reel_value *v, size_t room)
{
    fill(reach(room));
    captions_written a = plain->reel_write(v->flags, v->size, v->units, v->n, lent[0].bytes, room);
    captions_written b = library_calls.reel_write(v->flags, v->size, v->units, v->n, lent[1].bytes, room);
    return same_written(a, b) && same_lent(reach(room));
}

bool agree_reel_write_bytes(const calls *plain, const reel_value *v, size_t room)
{
    const uint8_t *units = (const uint8_t *)v->units;
    size_t len = v->n * sizeof v->units[0] + v->stray;
    fill(reach(room));
    captions_written a = plain->reel_write_bytes(v->flags, v->size, units, len, lent[0].bytes, room);
    captions_written b = library_calls.reel_write_bytes(v->flags, v->size, units, len, lent[1].bytes, room);
    return same_written(a, b) && same_lent(reach(room));
}

/* The state that each program is lent is the middle one of three, which are compared too. */
typedef struct states {
    captions_film of[2][3];
} states;

static states lend_state(captions_film state)
{
    return (states){{{state, state, state}, {state, state, state}}};
}

/* Two units and two more that none may change. */
enum { FILM_REACH = (CAPTIONS_FILM_UNITS + 2) * sizeof(captions_access_unit) };

static bool same_sent(captions_film_sent a, captions_film_sent b, const states *s)
{
    return same_refusal(a.refusal, b.refusal) && a.m == b.m && memcmp(s->of[0], s->of[1], sizeof s->of[0]) == 0 &&
           same_lent(FILM_REACH);
}

static captions_film_sent carry_picture(const calls *c, captions_film *film, const film_value *v,
                                        captions_access_unit *units)
{
    return c->film_picture(film, v->top_field_first, v->repeat_first_field, v->line, v->unit.reserved, v->unit.flag,
                           v->unit.n, v->unit.z, v->unit.records, units);
}

bool agree_film_picture(const calls *plain, const film_value *v)
{
    states s = lend_state(v->state);
    fill(FILM_REACH);
    captions_film_sent a = carry_picture(plain, &s.of[0][1], v, lent[0].units);
    captions_film_sent b = carry_picture(&library_calls, &s.of[1][1], v, lent[1].units);
    return same_sent(a, b, &s);
}

bool agree_film_close(const calls *plain, const film_value *v)
{
    states s = lend_state(v->state);
    fill(FILM_REACH);
    captions_film_sent a = plain->film_close(&s.of[0][1], lent[0].units);
    captions_film_sent b = library_calls.film_close(&s.of[1][1], lent[1].units);
    return same_sent(a, b, &s);
}

/* ---- Random inputs ---- */

/* Bytes that matter to some rule come often. */
static uint8_t odd_byte(void)
{
    static const uint8_t likely[] = {0, 0, 1, 2, 3, 4, 9, 10, 0xB2, 0xB3, 0x80, 0x81, 0x55, 0xFF, 31, 32, 63, 64};
    return below(3) == 0 ? (uint8_t)below(256) : likely[below(sizeof likely)];
}

/* Often nothing, else a few bytes or single bits of it changed. */
static void mutate(void *what, size_t len)
{
    uint8_t *s = what;
    for (uint32_t left = below(4); left > 0 && len > 0; left--) {
        uint8_t *at = s + below((uint32_t)len);
        *at = (uint8_t)(below(2) == 0 ? *at ^ 1u << below(8) : odd_byte());
    }
}

/* Mostly n itself, else up to six more or less, within `most`. */
static size_t nearly(size_t n, size_t most)
{
    size_t moved = n + below(12);
    size_t m = below(4) != 0 ? n : moved < 6 ? 0 : moved - 6;
    return m < most ? m : most;
}

/* How many bytes a unit has without its stuffing. */
static size_t size_of(const unit_value *v)
{
    return v->flag == 0 ? 6 : 4 + (25 + 26 * v->n + 7) / 8;
}

/* A number next to the longest area's length, or `usual`. */
static size_t near_longest(size_t usual)
{
    return below(40) == 0 ? CAPTIONS_AREA_BYTES - 2 + below(5) : usual;
}

static void random_value(unit_value *v)
{
    make_unit(v, below(2) == 0 ? below(5) : below(32), near_longest(below(3) == 0 ? below(20) : 0));
    if (below(40) == 0) {
        v->z = CAPTIONS_AREA_BYTES - 2 + below(5) - size_of(v);
    }
    if (below(4) == 0) {
        mutate(v->records, v->n * sizeof v->records[0]);
    }
    if (below(8) == 0) {
        v->flag = below(3);
        v->n = below(34);
        v->reserved = below(300);
    }
    if (below(20) == 0) {
        v->flag = 0;
        v->n = 0;
    }
    /* 08 to 0B behind 03: the two in the middle begin a data group. */
    if (below(16) == 0) {
        v->reserved = 4 + below(2);
        v->flag = below(2);
        v->n = v->flag == 0 ? 0 : v->n;
    }
}

/* How many bytes a GA94 unit has without its stuffing. */
static size_t size_of_ga94(const ga94_value *v)
{
    return 12 + 3 * v->n;
}

static void random_ga94(ga94_value *v)
{
    make_ga94(v, below(2) == 0 ? below(5) : below(32), near_longest(below(3) == 0 ? below(20) : 0));
    if (below(40) == 0) {
        v->z = CAPTIONS_AREA_BYTES - 2 + below(5) - size_of_ga94(v);
    }
    if (below(6) == 0) {
        mutate(v->records, v->n * sizeof v->records[0]);
    }
    if (below(8) == 0) {
        v->em_flag = below(3);
        v->cc_flag = below(3);
        v->additional = below(3);
        v->em_data = below(300);
        v->n = below(34);
    }
}

/* Mostly one unit of the kind, else none or two. */
static uint32_t some_units(void)
{
    return below(8) == 0 ? 2 : below(6) != 0;
}

static void random_area(area_input *area)
{
    area->len = 0;
    for (uint32_t left = below(4); left > 0; left--) {
        add_foreign(area, below(below(50) != 0 ? 40 : 4000), (enum body)below(BODIES));
    }
    for (uint32_t left = some_units(); left > 0; left--) {
        unit_value v;
        random_value(&v);
        carry_unit(&v, area);
    }
    for (uint32_t left = some_units(); left > 0; left--) {
        ga94_value v;
        random_ga94(&v);
        carry_ga94(&v, area);
    }
    if (below(3) == 0 && area->len < CAPTIONS_AREA_BYTES - 60) {
        add_foreign(area, below(40), (enum body)below(BODIES));
    }
    mutate(area->bytes, area->len);
    /* What is before the length stays: a new end may cut any item. */
    size_t end = area->len;
    area->len = near_longest(nearly(area->len, sizeof area->bytes));
    if (end < area->len) {
        memset(area->bytes + end, odd_byte(), area->len - end);
    }
}

/* A changed byte gets its word or is left wrong. */
static void mutate_words(uint16_t *words, size_t n)
{
    for (uint32_t left = below(3); left > 0 && n > 0; left--) {
        size_t at = below(3) != 0 ? below((uint32_t)n) : below(24) % n;
        uint8_t low = below(3) == 0 ? odd_byte() : (uint8_t)(words[at] ^ 1u << below(8));
        uint16_t even = (uint16_t)(0x6996 >> ((low ^ low >> 4) & 15) & 1);
        words[at] = below(6) == 0 ? (uint16_t)below(1100) : (uint16_t)(low | even << 8 | !even << 9);
    }
}

/* The word behind n words becomes their CS. */
static void mend_cs(uint16_t *words, size_t n)
{
    uint16_t sum = 0;
    for (size_t i = 0; i < n; i++) {
        sum = (sum + words[i]) & 511;
    }
    words[n] = (uint16_t)(sum | (~sum & 256) << 1);
}

/* The sums are often made right again, so that later rules are met. */
static void random_packet(packet_input *packet)
{
    packet_value v;
    make_packet(&v, below(6));
    carry_packet(&v, packet);
    size_t n = packet->len;
    mutate_words(packet->words, n);
    if (below(2) == 0) {
        mend_cs(packet->words + 3, n - 4);
    }
    packet->len = below(8) != 0 ? n : nearly(n, CAPTIONS_PACKET_WORDS + 16);
}

/* What is read, and then what is written: the value with some numbers and words changed. */
static bool random_multi(const calls *plain)
{
    static multi_value v;
    static multi_input multi;
    if (below(2) == 0) {
        make_subtitles(&v, below(6));
    } else {
        size_t n = below(6) == 0 ? 47 + below(4) : 1 + below(6);
        make_multi(&v, n, below(3) == 0 ? 0 : below((uint32_t)(254 / n - 4)));
    }
    carry_multi(&v, &multi);
    size_t n = multi.len;
    mutate_words(multi.words, n);
    /* NCS of the last inner packet, and CS. */
    if (below(2) == 0) {
        size_t count = v.inners[v.n - 1].count;
        mend_cs(multi.words + n - 5 - count, 3 + count);
    }
    if (below(2) == 0) {
        mend_cs(multi.words + 3, n - 4);
    }
    multi.len = below(8) != 0 ? n : nearly(n, CAPTIONS_MULTI_WORDS + 16);
    bool same = agree_multi_read(plain, &multi);
    if (below(4) == 0) {
        mutate_words(v.words, v.len);
    }
    if (below(4) == 0) {
        mutate(&v.inners[below((uint32_t)v.n)], sizeof v.inners[0]);
    }
    if (below(12) == 0) {
        v.priority = below(600);
        v.len -= below((uint32_t)v.len + 1);
    }
    if (below(8) == 0) {
        v.n = below(sizeof v.inners / sizeof v.inners[0] + 1);
    }
    return same && agree_multi_write(plain, &v, below(2) == 0 ? CAPTIONS_MULTI_WORDS : below(CAPTIONS_MULTI_WORDS));
}

/* The value to write as a packet, and to convert. Lines are 6 to 22, and a data field has no line 6. */
static bool random_packet_value(const calls *plain)
{
    packet_value v;
    make_packet(&v, below(6));
    if (below(2) == 0) {
        lift_line_6(&v);
    }
    if (below(3) == 0) {
        mutate(v.slots, sizeof v.slots);
    }
    if (below(6) == 0) {
        mutate(v.rows, sizeof v.rows);
    }
    if (below(16) == 0) {
        v.counter += below(3) * 40000;
    }
    return agree_packet_write(plain, &v, below(2) == 0 ? CAPTIONS_PACKET_WORDS : below(250)) &&
           agree_pes_convert_value(plain, &v, below(3) != 0 ? CAPTIONS_PES_BYTES : below(240));
}

enum { UNIT_BYTES = 46, UNIT_HEAD = 4 /* the bytes of a unit that are judged */ };

/* Some units become stuffing, of any bytes. */
static void stuff_some(pes_value *v)
{
    for (size_t i = 0; i < v->n; i++) {
        if (below(5) == 0) {
            v->units[i].data_unit_id = 0xFF;
            v->units[i].of.stuffing[0] = odd_byte();
            v->units[i].of.stuffing[1] = odd_byte();
        }
    }
}

/* The head of a unit is changed more often than its row, which can be any bytes. */
static void mutate_field(const pes_value *v, pes_input *pes)
{
    if (v->n > 0 && below(2) == 0) {
        mutate(pes->bytes + 1 + UNIT_BYTES * below((uint32_t)v->n), UNIT_HEAD);
    }
    if (below(8) == 0) {
        mutate(pes->bytes, pes->len);
    }
    if (below(16) == 0) {
        pes->bytes[0] = odd_byte();
    }
    /* Cut at any byte, or some bytes more. */
    if (below(4) == 0) {
        size_t end = pes->len;
        pes->len = below(2) == 0 ? below((uint32_t)end + 1) : end + below(64);
        memset(pes->bytes + end, odd_byte(), sizeof pes->bytes - end);
    }
}

static bool random_pes(const calls *plain)
{
    static pes_value v;
    static pes_input pes;
    make_pes(&v, below(4) == 0 ? 29 + below(3) : below(5));
    stuff_some(&v);
    carry_pes(&v, &pes);
    mutate_field(&v, &pes);
    bool same = agree_pes_read(plain, &pes);
    size_t room = below(2) == 0 ? 1 + UNIT_BYTES * v.n : below(CAPTIONS_PES_BYTES + 2);
    if (below(3) == 0 && v.n > 0) {
        mutate(&v.units[below((uint32_t)v.n)], UNIT_HEAD);
    }
    if (below(12) == 0) {
        v.data_identifier = below(300);
        v.n = below(34);
    }
    return same && agree_pes_write(plain, &v, room);
}

static bool random_payload(const calls *plain)
{
    static payload_value v;
    static payload_input payload;
    make_payload(&v, below(40) != 0 ? below(12) : below(292));
    carry_payload(&v, &payload);
    payload.len = nearly(payload.len, sizeof payload.bytes);
    if (below(50) == 0) {
        payload.len = CAPTIONS_PAYLOAD_BYTES - 8 + below(16);
    }
    bool same = agree_payload_read(plain, &payload);
    if (below(4) == 0) {
        mutate(v.units, v.m * sizeof v.units[0]);
    }
    if (below(20) == 0) {
        v.flags = below(300);
        v.m = below(4) == 0 ? 290 + below(4) : v.m;
    }
    return same && agree_payload_write(plain, &v, below(2) == 0 ? CAPTIONS_PAYLOAD_BYTES : below(80));
}

/* Short runs of several payloads. Half of them get the room that they need, the others any less or a byte more. */
static bool random_reel(const calls *plain)
{
    static captions_access_unit units[700];
    reel_value v = {.flags = below(20) == 0 ? below(600) : below(256), .units = units};
    v.size = below(6) == 0 ? 289 + below(5) : below(12);
    v.n = below(30) == 0 ? below(699) : below(30);
    v.stray = below(20) == 0 ? 1 + below(6) : 0;
    make_run(units, v.n + 1);
    if (below(4) == 0) {
        mutate(units, v.n * sizeof units[0]);
    }
    size_t whole = 5 * v.n + (v.size == 0 ? 0 : (v.n + v.size - 1) / v.size);
    size_t room = below(2) == 0 ? whole : below((uint32_t)whole + 2);
    return agree_reel_write(plain, &v, room) && agree_reel_write_bytes(plain, &v, room);
}

/* Mostly a state that a call can leave. */
static captions_film random_state(void)
{
    captions_film s = {.waiting = below(2) == 0};
    if (s.waiting == 1 && below(3) != 0) {
        s = (captions_film){1, 1, odd_byte(), odd_byte()};
    }
    if (below(8) == 0) {
        mutate(&s, sizeof s);
    }
    return s;
}

/* Records of any fields on one line, or those of a caption unit, which are on many. */
static bool random_film(const calls *plain)
{
    film_value v;
    uint32_t repeat = below(2);
    make_picture(&v, below(2), repeat, below(2) == 0 ? 2 + repeat : below(4));
    v.state = random_state();
    if (below(8) == 0) {
        random_value(&v.unit);
    }
    if (below(4) == 0) {
        mutate(v.unit.records, v.unit.n <= CAPTIONS_RECORDS ? v.unit.n * sizeof v.unit.records[0] : 0);
    }
    if (below(16) == 0) {
        v.top_field_first = below(3) * 255;
        v.repeat_first_field = below(3);
        v.line = below(40);
    }
    return agree_film_picture(plain, &v) && agree_film_close(plain, &v);
}

bool agree_on_random(const calls *plain, size_t inputs)
{
    static area_input area;
    static packet_input packet;
    restart(0);
    for (size_t i = 0; i < inputs; i += 20) {
        unit_value v;
        ga94_value g;
        random_area(&area);
        random_value(&v);
        random_ga94(&g);
        random_packet(&packet);
        if (below(20) == 0 && area.len < 16000) {
            v.z = CAPTIONS_AREA_BYTES - 2 + below(5) - area.len - size_of(&v);
            g.z = CAPTIONS_AREA_BYTES - 2 + below(5) - area.len - size_of_ga94(&g);
        }
        size_t room = below(8) == 0 || v.z > 1000 || g.z > 1000 ? CAPTIONS_AREA_BYTES : below(600);
        size_t field_room = below(3) != 0 ? CAPTIONS_PES_BYTES : below(240);
        if (!agree_area_read(plain, &area) || !agree_unit_write(plain, &v, room) ||
            !agree_area_replace(plain, &area, &v, room) || !agree_ga94_read(plain, &area) ||
            !agree_ga94_write(plain, &g, room) || !agree_ga94_replace(plain, &area, &g, room) ||
            !agree_packet_read(plain, &packet) || !agree_pes_convert(plain, &packet, field_room) ||
            !random_packet_value(plain) || !random_multi(plain) || !random_pes(plain) || !random_payload(plain) ||
            !random_reel(plain) || !random_film(plain)) {
            return false;
        }
    }
    return true;
}
