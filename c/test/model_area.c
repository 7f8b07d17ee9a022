/* model_area.c: see model_area.h. */
#include "model_area.h"

#include <string.h>

#include "layout.h"

/* ---- The units of an area (RULES, "Picture area", first paragraph) ---- */

static bool prefix_at(const uint8_t *area, size_t len, size_t i)
{
    return i + 2 < len && area[i] == 0x00 && area[i + 1] == 0x00 && area[i + 2] == 0x01;
}

static bool start_code_at(const uint8_t *area, size_t len, size_t i)
{
    return prefix_at(area, len, i) && i + 3 < len && area[i + 3] == 0xB2;
}

size_t model_unit_end(const uint8_t *area, size_t len, size_t start)
{
    for (size_t i = start + 1; i < len; i++)
        if (prefix_at(area, len, i))
            return i;
    return len;
}

bool model_is_data_group(const uint8_t *body, size_t len)
{
    return len >= 2 && body[0] == 0x03 && (body[1] == 0x09 || body[1] == 0x0A);
}

uint8_t model_find_unit(const uint8_t *area, size_t len, ours *is_ours, unit_span *span)
{
    span->found = false;
    if (len > CAPTIONS_AREA_BYTES)
        return 1;
    if (len > 0 && !start_code_at(area, len, 0))
        return 2;
    for (size_t i = 0; i < len; i++)
        if (prefix_at(area, len, i) && !start_code_at(area, len, i))
            return 3;
    for (size_t i = 0; i < len; i++) {
        size_t end;
        if (!start_code_at(area, len, i))
            continue;
        end = model_unit_end(area, len, i);
        if (!is_ours(area + i + LAYOUT_START, end - i - LAYOUT_START))
            continue;
        if (span->found)
            return 4;
        *span = (unit_span){true, i, end};
    }
    return 0;
}

/* ---- Bits ---- */

bit_source model_body_bits(const uint8_t *area, unit_span span)
{
    return (bit_source){area, 8 * (span.start + LAYOUT_START), 8 * span.end};
}

size_t bits_left(const bit_source *bits)
{
    return bits->end - bits->at;
}

unsigned take_bit(bit_source *bits)
{
    unsigned bit = bits->area[bits->at / 8] >> (7 - bits->at % 8) & 1;

    bits->at++;
    return bit;
}

unsigned take_bits(bit_source *bits, unsigned count)
{
    unsigned value = 0;

    while (count-- > 0)
        value = value * 2 + take_bit(bits);
    return value;
}

captions_refusal refused_at(uint8_t number, size_t bit)
{
    return (captions_refusal){number, bit};
}

captions_refusal not_refused(void)
{
    return (captions_refusal){0, 0};
}

captions_refusal take_zeros(bit_source *bits)
{
    while (bits_left(bits) > 0) {
        size_t at = bits->at;
        if (take_bit(bits) != 0)
            return refused_at(19, at);
    }
    return not_refused();
}

/* ---- Writing ---- */

captions_written model_refusal(uint8_t number, size_t place)
{
    return (captions_written){.refusal = {number, place}};
}

captions_written model_put_unit(const uint8_t *area, size_t len, unit_span span, const uint8_t *unit, size_t unit_len,
                                uint8_t *out, size_t room)
{
    size_t whole = len - (span.end - span.start) + unit_len;

    if (whole > CAPTIONS_AREA_BYTES)
        return model_refusal(1, 0);
    if (whole > room)
        return model_refusal(14, 0);
    /* An empty area may be null, which memcpy does not take. */
    if (span.start > 0)
        memcpy(out, area, span.start);
    memcpy(out + span.start, unit, unit_len);
    if (len > span.end)
        memcpy(out + span.start + unit_len, area + span.end, len - span.end);
    return (captions_written){.len = whole};
}
