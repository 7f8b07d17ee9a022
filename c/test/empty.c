/*
 * empty.c: null pointers with length 0, for each pointer of each call that has a length. Those of film have none. A reel has
 * two calls, and both are asked.
 *
 * The library is given null where the model is given a pointer to nothing. Both must answer alike, with the number that
 * stands here. Then the same question goes to calls that touch their first element before they look at the length: each
 * must be noticed, so that the null pointers did arrive.
 */
#include <stdio.h>
#include <string.h>

#include "harness.h"

/* What has no elements. The input of a reel is its run; that of multi_write its words, beside which are inner packets. */
enum { INPUT = 1, OUTPUT = 2, INNERS = 4 };

typedef struct empty_case {
    const char *what;
    operation op;
    unsigned empty; /* one or more of these */
    bool legal;     /* whether the value to write is */
    uint8_t number; /* the refusal by RULES */
    size_t len;     /* how many elements a writer wrote */
} empty_case;

enum { UNIT_BYTES = 11, GA94_BYTES = 15, MULTI_WORDS = 13 };

static const empty_case cases[] = {
    {"area_read: area", AREA_READ, INPUT, true, 0, 0},
    {"unit_write: out", UNIT_WRITE, OUTPUT, true, 14, 0},
    {"unit_write: out, a value that is not legal", UNIT_WRITE, OUTPUT, false, 15, 0},
    {"area_replace: area", AREA_REPLACE, INPUT, true, 0, UNIT_BYTES},
    {"area_replace: area, a value that is not legal", AREA_REPLACE, INPUT, false, 15, 0},
    {"area_replace: out", AREA_REPLACE, OUTPUT, true, 14, 0},
    {"area_replace: area and out", AREA_REPLACE, INPUT | OUTPUT, true, 14, 0},
    {"ga94_read: area", GA94_READ, INPUT, true, 0, 0},
    {"ga94_write: out", GA94_WRITE, OUTPUT, true, 14, 0},
    {"ga94_write: out, a value that is not legal", GA94_WRITE, OUTPUT, false, 15, 0},
    {"ga94_replace: area", GA94_REPLACE, INPUT, true, 0, GA94_BYTES},
    {"ga94_replace: area, a value that is not legal", GA94_REPLACE, INPUT, false, 15, 0},
    {"ga94_replace: out", GA94_REPLACE, OUTPUT, true, 14, 0},
    {"ga94_replace: area and out", GA94_REPLACE, INPUT | OUTPUT, true, 14, 0},
    {"packet_read: words", PACKET_READ, INPUT, true, 5, 0},
    {"packet_write: out", PACKET_WRITE, OUTPUT, true, 14, 0},
    {"packet_write: out, a value that is not legal", PACKET_WRITE, OUTPUT, false, 15, 0},
    {"multi_read: words", MULTI_READ, INPUT, true, 5, 0},
    {"multi_write: words", MULTI_WRITE, INPUT, true, 0, MULTI_WORDS},
    {"multi_write: words, a value that is not legal", MULTI_WRITE, INPUT, false, 15, 0},
    {"multi_write: out", MULTI_WRITE, OUTPUT, true, 14, 0},
    {"multi_write: words and out", MULTI_WRITE, INPUT | OUTPUT, true, 14, 0},
    {"multi_write: inners", MULTI_WRITE, INNERS, true, 26, 0},
    {"multi_write: inners, a value that is not legal", MULTI_WRITE, INNERS, false, 15, 0},
    {"multi_write: inners and words", MULTI_WRITE, INPUT | INNERS, true, 26, 0},
    {"multi_write: inners, words and out", MULTI_WRITE, INPUT | INNERS | OUTPUT, true, 26, 0},
    {"pes_read: field", PES_READ, INPUT, true, 5, 0},
    {"pes_write: out", PES_WRITE, OUTPUT, true, 14, 0},
    {"pes_write: out, a value that is not legal", PES_WRITE, OUTPUT, false, 15, 0},
    {"pes_convert: words", PES_CONVERT, INPUT, true, 5, 0},
    {"pes_convert: out", PES_CONVERT, OUTPUT, true, 14, 0},
    {"pes_convert: out, a line that is not legal", PES_CONVERT, OUTPUT, false, 7, 0},
    {"pes_convert: words and out", PES_CONVERT, INPUT | OUTPUT, true, 5, 0},
    {"pes_convert_value: out", PES_CONVERT_VALUE, OUTPUT, true, 14, 0},
    {"pes_convert_value: out, a value that is not legal", PES_CONVERT_VALUE, OUTPUT, false, 15, 0},
    {"payload_read: payload", PAYLOAD_READ, INPUT, true, 2, 0},
    {"payload_write: out", PAYLOAD_WRITE, OUTPUT, true, 14, 0},
    {"payload_write: out, a value that is not legal", PAYLOAD_WRITE, OUTPUT, false, 15, 0},
    {"reel_write and _bytes: units", PAYLOAD_REEL, INPUT, true, 0, 0},
    {"reel_write and _bytes: units, a value that is not legal", PAYLOAD_REEL, INPUT, false, 15, 0},
    {"reel_write and _bytes: out", PAYLOAD_REEL, OUTPUT, true, 14, 0},
    {"reel_write and _bytes: out, a value that is not legal", PAYLOAD_REEL, OUTPUT, false, 15, 0},
    {"reel_write and _bytes: units and out", PAYLOAD_REEL, INPUT | OUTPUT, true, 0, 0},
    {"reel_write and _bytes: units and out, a value that is not legal", PAYLOAD_REEL, INPUT | OUTPUT, false, 15, 0},
};

static question q;
static outcome by_library, by_model, altered;
static unsigned long asked, differ, not_noticed;

/* ---- Calls that touch before they look at the length ---- */

static void touch(const void *pointer)
{
    (void)*(const volatile uint8_t *)pointer;
}

static captions_unit eager_area_read(const uint8_t *area, size_t len, captions_record *records)
{
    touch(area);
    return captions_area_read(area, len, records);
}

static captions_written eager_unit_write(uint32_t reserved, uint32_t flag, size_t n, size_t z, const captions_record *records,
                                         uint8_t *out, size_t room)
{
    touch(out);
    return captions_unit_write(reserved, flag, n, z, records, out, room);
}

/* Only one of the two is touched: the area where it is empty, else the output. */
static captions_written eager_area_replace(const uint8_t *area, size_t len, uint32_t reserved, uint32_t flag, size_t n, size_t z,
                                           const captions_record *records, uint8_t *out, size_t room)
{
    touch(len == 0 ? area : out);
    return captions_area_replace(area, len, reserved, flag, n, z, records, out, room);
}

static captions_ga94_unit eager_ga94_read(const uint8_t *area, size_t len, captions_ga94_record *records)
{
    touch(area);
    return captions_ga94_read(area, len, records);
}

static captions_written eager_ga94_write(uint32_t em_flag, uint32_t cc_flag, uint32_t additional, uint32_t em_data, size_t n,
                                         size_t z, const captions_ga94_record *records, uint8_t *out, size_t room)
{
    touch(out);
    return captions_ga94_write(em_flag, cc_flag, additional, em_data, n, z, records, out, room);
}

static captions_written eager_ga94_replace(const uint8_t *area, size_t len, uint32_t em_flag, uint32_t cc_flag,
                                           uint32_t additional, uint32_t em_data, size_t n, size_t z,
                                           const captions_ga94_record *records, uint8_t *out, size_t room)
{
    touch(len == 0 ? area : out);
    return captions_ga94_replace(area, len, em_flag, cc_flag, additional, em_data, n, z, records, out, room);
}

static captions_packet eager_packet_read(const uint16_t *words, size_t len, captions_row *rows)
{
    touch(words);
    return captions_packet_read(words, len, rows);
}

static captions_written eager_packet_write(uint32_t counter, const captions_slot *slots, const captions_row *rows, uint16_t *out,
                                           size_t room)
{
    touch(out);
    return captions_packet_write(counter, slots, rows, out, room);
}

static captions_multi eager_multi_read(const uint16_t *words, size_t len, captions_inner *inners)
{
    touch(words);
    return captions_multi_read(words, len, inners);
}

/* Only one of the three is touched, one that is empty if there is such. */
static captions_written eager_multi_write(uint32_t priority, const captions_inner *inners, size_t n, const uint16_t *words,
                                          size_t len, uint16_t *out, size_t room)
{
    if (n == 0)
        touch(inners);
    else if (len == 0)
        touch(words);
    else
        touch(out);
    return captions_multi_write(priority, inners, n, words, len, out, room);
}

static captions_pes eager_pes_read(const uint8_t *field, size_t len, captions_data_unit *units)
{
    touch(field);
    return captions_pes_read(field, len, units);
}

static captions_written eager_pes_write(uint32_t data_identifier, size_t n, const captions_data_unit *units, uint8_t *out,
                                        size_t room)
{
    touch(out);
    return captions_pes_write(data_identifier, n, units, out, room);
}

/* Only one of the two is touched: the packet where it is empty, else the output. */
static captions_written eager_pes_convert(const uint16_t *words, size_t len, uint8_t *out, size_t room)
{
    if (len == 0)
        touch(words);
    else
        touch(out);
    return captions_pes_convert(words, len, out, room);
}

static captions_written eager_pes_convert_value(uint32_t counter, const captions_slot *slots, const captions_row *rows,
                                                uint8_t *out, size_t room)
{
    touch(out);
    return captions_pes_convert_value(counter, slots, rows, out, room);
}

static captions_payload eager_payload_read(const uint8_t *payload, size_t len, captions_access_unit *units)
{
    touch(payload);
    return captions_payload_read(payload, len, units);
}

static captions_written eager_payload_write(uint32_t flags, size_t m, const captions_access_unit *units, uint8_t *out, size_t room)
{
    touch(out);
    return captions_payload_write(flags, m, units, out, room);
}

/* Only one of the two is touched: the run where it is empty, else the output. */
static captions_written eager_reel_write(uint32_t flags, size_t size, const captions_access_unit *units, size_t n, uint8_t *out,
                                         size_t room)
{
    if (n == 0)
        touch(units);
    else
        touch(out);
    return captions_reel_write(flags, size, units, n, out, room);
}

static captions_written eager_reel_write_bytes(uint32_t flags, size_t size, const uint8_t *units, size_t len, uint8_t *out,
                                               size_t room)
{
    touch(len == 0 ? units : out);
    return captions_reel_write_bytes(flags, size, units, len, out, room);
}

static const calls eager_calls = {eager_area_read,       eager_unit_write,    eager_area_replace, eager_ga94_read,
                                  eager_ga94_write,      eager_ga94_replace,  eager_packet_read,  eager_packet_write,
                                  eager_multi_read,      eager_multi_write,   eager_pes_read,     eager_pes_write,
                                  eager_pes_convert,     eager_pes_convert_value,
                                  eager_payload_read,    eager_payload_write, eager_reel_write,   eager_reel_write_bytes,
                                  captions_film_picture, captions_film_close};

static void ask_eagerly(void *question_asked)
{
    ask(&eager_calls, question_asked, SPOIL_NOTHING, &altered);
}

/* ---- Questions ---- */

/* The words of a packet with one full slot. */
static size_t packet_of_one_line(uint8_t line)
{
    static packet_value value;

    value.slots[0] = (captions_slot){1, line, 0, 1};
    return layout_packet(&value, q.words);
}

/* `as_bytes`: a reel by the call over bytes. */
static void make_question(const empty_case *c, side at, bool as_bytes)
{
    static const uint8_t area[] = {0x00, 0x00, 0x01, 0xB2, 0x47};
    bool input = c->empty & INPUT;

    memset(&q, 0, sizeof q);
    q.op = c->op;
    q.fill = FILL;
    q.at = at;
    q.nulls = true;
    if (!input) {
        memcpy(q.bytes, area, sizeof area);
        q.len = sizeof area;
    }
    q.room = c->empty & OUTPUT ? 0 : 64;
    q.unit.reserved = c->legal ? 64 : 128;
    q.unit.vbi_data_flag = 1;
    q.unit.n = 1;
    q.unit.records[0] = (captions_record){0, 1, 11, 0x94, 0x2C};
    q.ga94.process_cc_data_flag = 1;
    q.ga94.em_data = c->legal ? 255 : 256;
    q.ga94.n = 1;
    q.ga94.records[0] = (captions_ga94_record){1, 0, 0x94, 0x2C};
    q.packet.counter = c->legal ? 4660 : 65536;
    if (q.op == PES_CONVERT && !input)
        q.len = packet_of_one_line(c->legal ? 7 : 6);
    q.multi.priority = c->legal ? 1 : 256;
    q.multi.n = c->empty & INNERS ? 0 : 1;
    q.multi.inners[0] = (captions_inner){10, 1, 0x50, 0x01, 0, input ? 0 : 1};
    q.multi.len = input ? 0 : 1;
    q.multi.words[0] = layout_word(0x08);
    q.pes.data_identifier = c->legal ? 16 : 272;
    q.payload.flags = c->legal ? 0 : 256;
    q.payload.m = 1;
    q.payload.units[0] = (captions_access_unit){1, 0, 0, 0x94, 0x2C, 0x00, 0x00};
    q.as_bytes = as_bytes;
    q.reel.size = c->legal ? CAPTIONS_ACCESS_UNITS : CAPTIONS_ACCESS_UNITS + 1;
    q.reel.n = input ? 0 : 1;
    q.reel.units[0] = q.payload.units[0];
}

static void complain(const empty_case *c, const char *what)
{
    printf("DIFFERS: %s: %s\n", c->what, what);
    differ++;
}

/* Each number of the answer changed: the comparison must say so. */
static void alter(const empty_case *c)
{
    for (size_t i = 0; i < by_library.count; i++) {
        altered = by_library;
        altered.numbers[i]++;
        if (difference(&q, &altered, &by_library) == NULL) {
            printf("NOT NOTICED: %s: number %zu changed\n", c->what, i);
            not_noticed++;
        }
    }
}

static void run(const empty_case *c, side at, bool as_bytes)
{
    const char *differs;

    make_question(c, at, as_bytes);
    snprintf(guard_asking, sizeof guard_asking, "%s", c->what);
    ask(&library_calls, &q, SPOIL_NOTHING, &by_library);
    ask(&model_calls, &q, SPOIL_NOTHING, &by_model);
    asked++;
    differs = difference(&q, &by_model, &by_library);
    if (differs != NULL)
        complain(c, differs);
    else if (by_library.numbers[0] != c->number || (is_writer(c->op) && by_library.numbers[2] != c->len))
        complain(c, "not the number or the length that RULES has");
    alter(c);
    if (!touches(ask_eagerly, &q)) {
        printf("NOT NOTICED: %s: a touch before the length was looked at\n", c->what);
        not_noticed++;
    }
}

int main(void)
{
    bool good;

    harness_open();
    for (size_t i = 0; i < sizeof cases / sizeof *cases; i++) {
        bool reel = cases[i].op == PAYLOAD_REEL;
        for (int as_bytes = 0; as_bytes <= reel; as_bytes++) {
            run(&cases[i], AT_END, as_bytes == 1);
            run(&cases[i], AT_FRONT, as_bytes == 1);
        }
    }
    good = differ == 0 && not_noticed == 0 && arenas_are_whole();
    printf("empty: %lu calls with null pointers, %lu differ; altered or touching too soon, and not noticed: %lu\n", asked, differ,
           not_noticed);
    puts(good ? "empty: passed" : "empty: FAILED");
    return good ? 0 : 1;
}
