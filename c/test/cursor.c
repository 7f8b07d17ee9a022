/* cursor.c: see cursor.h. */
#include "cursor.h"

#include <string.h>

bool take(cursor *c, char wanted)
{
    if (*c->at != wanted)
        return false;
    c->at++;
    return true;
}

void need(cursor *c, char wanted)
{
    if (!take(c, wanted))
        c->bad = true;
}

uint64_t take_number(cursor *c, uint64_t most)
{
    uint64_t value = 0;
    bool wide = false;

    if (*c->at < '0' || *c->at > '9')
        c->bad = true;
    for (; *c->at >= '0' && *c->at <= '9'; c->at++) {
        unsigned digit = (unsigned)(*c->at - '0');
        wide = wide || value > (UINT64_MAX - digit) / 10;
        value = value * 10 + digit;
    }
    if (wide || value > most)
        c->wide = true;
    return value;
}

static int hex_digit(char c)
{
    if (c >= '0' && c <= '9')
        return c - '0';
    return c >= 'A' && c <= 'F' ? c - 'A' + 10 : -1;
}

static uint16_t take_hex(cursor *c, unsigned digits)
{
    unsigned value = 0;

    for (unsigned i = 0; i < digits && !c->bad; i++) {
        int digit = hex_digit(*c->at);
        if (digit < 0)
            c->bad = true;
        else
            c->at++;
        value = value * 16 + (unsigned)(digit & 15);
    }
    return (uint16_t)value;
}

/* `*N` behind an item: how often it stands there; 1 without it. More than any input holds is bad, not wide. */
static size_t take_times(cursor *c)
{
    cursor times = {c->at, c->bad, false, false};
    size_t value;

    if (!take(&times, '*'))
        return 1;
    value = (size_t)take_number(&times, INPUT_MAX);
    c->at = times.at;
    c->bad = times.bad || times.wide;
    return value;
}

/* One segment: elements one behind the other, or one element `*` its times. */
static size_t take_segment(cursor *c, unsigned digits, uint16_t *to, size_t most)
{
    size_t len = 0, times;
    uint16_t element;

    do {
        element = take_hex(c, digits);
        if (len == most || c->bad) {
            c->bad = true;
            return 0;
        }
        to[len++] = element;
    } while (hex_digit(*c->at) >= 0);
    times = take_times(c);
    if (times != 1 && (len != 1 || times == 0 || times > most))
        c->bad = true;
    for (; len < times && !c->bad; len++)
        to[len] = element;
    return len;
}

size_t take_elements(cursor *c, unsigned digits, uint16_t *to, size_t most)
{
    size_t len = 0;

    if (take(c, '-'))
        return 0;
    do
        len += take_segment(c, digits, to + len, most - len);
    while (!c->bad && take(c, '+'));
    return len;
}

size_t take_bytes(cursor *c, uint8_t *to, size_t most)
{
    static uint16_t wide[INPUT_MAX];
    size_t len = take_elements(c, 2, wide, most);

    for (size_t i = 0; i < len; i++)
        to[i] = (uint8_t)wide[i];
    return len;
}

/* ---- Lists. Items beyond the places of an array are counted, not kept. ---- */

static uint8_t take_small(cursor *c)
{
    uint8_t value = (uint8_t)take_number(c, 255);

    need(c, '.');
    return value;
}

static captions_record take_record(cursor *c)
{
    captions_record r;

    r.cc_priority = take_small(c);
    r.field_number = take_small(c);
    r.line_offset = take_small(c);
    r.cc_data_1 = (uint8_t)take_hex(c, 2);
    r.cc_data_2 = (uint8_t)take_hex(c, 2);
    return r;
}

static captions_ga94_record take_ga94_record(cursor *c)
{
    captions_ga94_record r;

    r.cc_valid = take_small(c);
    r.cc_type = take_small(c);
    r.cc_data_1 = (uint8_t)take_hex(c, 2);
    r.cc_data_2 = (uint8_t)take_hex(c, 2);
    return r;
}

static captions_access_unit take_unit(cursor *c)
{
    captions_access_unit u;

    u.cc_valid_1 = take_small(c);
    u.cc_valid_2 = take_small(c);
    u.padding = take_small(c);
    u.field1_data1 = (uint8_t)take_hex(c, 2);
    u.field1_data2 = (uint8_t)take_hex(c, 2);
    u.field2_data1 = (uint8_t)take_hex(c, 2);
    u.field2_data2 = (uint8_t)take_hex(c, 2);
    return u;
}

size_t take_record_list(cursor *c, captions_record *to)
{
    size_t len = 0;

    if (take(c, '-'))
        return 0;
    do {
        captions_record record = take_record(c);
        for (size_t times = take_times(c); times > 0 && !c->bad; times--, len++)
            if (len < CAPTIONS_RECORDS)
                to[len] = record;
    } while (!c->bad && take(c, ','));
    return len;
}

size_t take_ga94_list(cursor *c, captions_ga94_record *to)
{
    size_t len = 0;

    if (take(c, '-'))
        return 0;
    do {
        captions_ga94_record record = take_ga94_record(c);
        for (size_t times = take_times(c); times > 0 && !c->bad; times--, len++)
            if (len < CAPTIONS_RECORDS)
                to[len] = record;
    } while (!c->bad && take(c, ','));
    return len;
}

size_t take_unit_list(cursor *c, captions_access_unit *to, size_t most)
{
    size_t len = 0;

    if (take(c, '-'))
        return 0;
    do {
        captions_access_unit unit = take_unit(c);
        for (size_t times = take_times(c); times > 0 && !c->bad; times--, len++)
            if (len < most)
                to[len] = unit;
    } while (!c->bad && take(c, ','));
    return len;
}

static void take_hex_bytes(cursor *c, uint8_t *to, size_t count)
{
    for (size_t i = 0; i < count; i++)
        to[i] = (uint8_t)take_hex(c, 2);
}

/* `T.id.parity.line.` and 42 bytes, or `S.` and 44. */
static captions_data_unit take_data_unit(cursor *c)
{
    captions_data_unit u = {.data_unit_id = LAYOUT_STUFFING_ID};
    bool stuffing = take(c, 'S');

    if (!stuffing)
        need(c, 'T');
    need(c, '.');
    if (stuffing) {
        take_hex_bytes(c, u.of.stuffing, sizeof u.of.stuffing);
        return u;
    }
    u.data_unit_id = take_small(c);
    u.of.teletext.field_parity = take_small(c);
    u.of.teletext.line_offset = take_small(c);
    take_hex_bytes(c, u.of.teletext.row, sizeof u.of.teletext.row);
    c->as_stuffing = c->as_stuffing || u.data_unit_id == LAYOUT_STUFFING_ID;
    return u;
}

size_t take_data_unit_list(cursor *c, captions_data_unit *to)
{
    size_t len = 0;

    if (take(c, '-'))
        return 0;
    do {
        captions_data_unit unit = take_data_unit(c);
        for (size_t times = take_times(c); times > 0 && !c->bad; times--, len++)
            if (len < CAPTIONS_PES_UNITS)
                to[len] = unit;
    } while (!c->bad && take(c, ','));
    return len;
}

/* `line.field.DID.SDID.` and the user bytes, without segments; `-` for none. A `*` behind them is of the inner packet. */
static void take_inner(cursor *c, multi_value *to)
{
    captions_inner *inner = &to->inners[to->n];

    inner->line = (uint16_t)take_number(c, UINT16_MAX);
    need(c, '.');
    inner->field = (uint16_t)take_number(c, UINT16_MAX);
    need(c, '.');
    inner->did = take_hex(c, 2);
    need(c, '.');
    inner->sdid = take_hex(c, 2);
    need(c, '.');
    inner->at = (uint16_t)to->len;
    if (!take(c, '-'))
        do {
            to->words[to->len++] = layout_word((uint8_t)take_hex(c, 2));
            c->bad = c->bad || to->len > UINT16_MAX;
        } while (!c->bad && hex_digit(*c->at) >= 0);
    inner->count = (uint16_t)(to->len - inner->at);
    to->n++;
}

/* `*N` behind an inner packet: each has user words of its own. */
static void repeat_inner(cursor *c, multi_value *to)
{
    for (size_t times = take_times(c); times > 1 && !c->bad; times--, to->n++) {
        captions_inner inner = to->inners[to->n - 1];
        if (to->n == MULTI_INNERS_MAX || to->len + inner.count > UINT16_MAX) {
            c->bad = true;
            return;
        }
        memcpy(to->words + to->len, to->words + inner.at, inner.count * sizeof *to->words);
        inner.at = (uint16_t)to->len;
        to->inners[to->n] = inner;
        to->len += inner.count;
    }
}

void take_inner_list(cursor *c, multi_value *to)
{
    to->n = to->len = 0;
    if (take(c, '-'))
        return;
    do {
        if (to->n == MULTI_INNERS_MAX)
            c->bad = true;
        else
            take_inner(c, to);
        if (!c->bad)
            repeat_inner(c, to);
    } while (!c->bad && take(c, ','));
}

void take_head_list(cursor *c, multi_value *to)
{
    to->n = 0;
    if (take(c, '-'))
        return;
    do {
        uint16_t numbers[6];
        for (size_t i = 0; i < 6; i++) {
            numbers[i] = (uint16_t)take_number(c, UINT16_MAX);
            if (i < 5)
                need(c, '.');
        }
        if (to->n == MULTI_INNERS_MAX)
            c->bad = true;
        else
            memcpy(&to->inners[to->n++], numbers, sizeof numbers);
    } while (!c->bad && take(c, ','));
}

/* A flag is one digit. A case may have one that is no bit. */
static uint32_t take_digit(cursor *c)
{
    char digit = *c->at;

    if (digit < '0' || digit > '9') {
        c->bad = true;
        return 0;
    }
    c->at++;
    return (uint32_t)(digit - '0');
}

void take_flags(cursor *c, ga94_value *to)
{
    uint32_t *const flags[] = {&to->process_em_data_flag, &to->process_cc_data_flag, &to->additional_data_flag};
    const char *end = c->at;
    bool decimals;

    while (*end >= '0' && *end <= '9')
        end++;
    decimals = *end == '.';
    for (size_t i = 0; i < 3 && !c->bad; i++) {
        if (decimals && i > 0)
            need(c, '.');
        *flags[i] = decimals ? (uint32_t)take_number(c, UINT32_MAX) : take_digit(c);
    }
}

void take_slots(cursor *c, packet_value *to)
{
    for (size_t i = 0; i < CAPTIONS_SLOTS && !c->bad; i++) {
        if (i > 0)
            need(c, ',');
        to->slots[i].full = take_small(c);
        to->slots[i].line = take_small(c);
        to->slots[i].reserved = take_small(c);
        to->slots[i].field = take_small(c);
        if (take_bytes(c, to->rows[i].bytes, CAPTIONS_ROW_BYTES) != CAPTIONS_ROW_BYTES)
            c->bad = true;
    }
}
