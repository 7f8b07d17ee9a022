#include "text.h"

#include <string.h>

enum { NO_DIGIT = 16 };

part part_of(const char *text)
{
    return (part){ (const uint8_t *)text, strlen(text) };
}

bool is_text(part p, const char *text)
{
    return p.len == strlen(text) && (p.len == 0 || memcmp(p.at, text, p.len) == 0);
}

/* The part behind the first n bytes. */
static part behind(part p, size_t n)
{
    return (part){ p.len == 0 ? p.at : p.at + n, p.len - n };
}

static bool is_white(uint8_t c)
{
    return c == ' ' || c == '\t' || c == '\r' || c == '\n';
}

static unsigned digit_of(uint8_t c)
{
    if ('0' <= c && c <= '9')
        return c - '0';
    if ('A' <= c && c <= 'F')
        return c - 'A' + 10;
    if ('a' <= c && c <= 'f')
        return c - 'a' + 10;
    return NO_DIGIT;
}

/* ---- Lines and words ---- */

bool next_line(part *text, part *line)
{
    if (text->len == 0)
        return false;
    const uint8_t *end = memchr(text->at, '\n', text->len);
    size_t len = end == NULL ? text->len : (size_t)(end - text->at);
    *line = (part){ text->at, len };
    *text = behind(*text, end == NULL ? len : len + 1);
    return true;
}

bool next_word(part *text, part *word)
{
    size_t start = 0;
    while (start < text->len && is_white(text->at[start]))
        start++;
    size_t end = start;
    while (end < text->len && !is_white(text->at[end]))
        end++;
    *word = (part){ behind(*text, start).at, end - start };
    *text = behind(*text, end);
    return word->len > 0;
}

bool is_blank(part text)
{
    part word;
    return !next_word(&text, &word);
}

size_t line_of(part text, part rest)
{
    size_t end = text.len - rest.len;
    size_t line = 1;
    while (end > 0 && is_white(text.at[end - 1]))
        end--;
    for (size_t i = 0; i < end; i++)
        line += text.at[i] == '\n';
    return line;
}

/* ---- Numbers ---- */

/* One digit or more below `base`. */
static bool number_of(part word, unsigned base, uint64_t *n)
{
    uint64_t value = 0;
    for (size_t i = 0; i < word.len; i++) {
        unsigned digit = digit_of(word.at[i]);
        if (digit >= base)
            return false;
        value = value > (UINT64_MAX - digit) / base ? UINT64_MAX : value * base + digit;
    }
    *n = value;
    return word.len > 0;
}

bool decimal_of(part word, uint64_t *n)
{
    return number_of(word, 10, n);
}

bool hex_of(part word, uint64_t *n)
{
    return number_of(word, 16, n);
}

bool hex_byte_of(part word, uint8_t *byte)
{
    uint64_t n;
    if (word.len != 2 || !hex_of(word, &n))
        return false;
    *byte = (uint8_t)n;
    return true;
}

uint8_t to_8(uint64_t n)
{
    return n > UINT8_MAX ? UINT8_MAX : (uint8_t)n;
}

uint32_t to_32(uint64_t n)
{
    return n > UINT32_MAX ? UINT32_MAX : (uint32_t)n;
}

bool next_decimal(part *text, uint64_t *n)
{
    part word;
    return next_word(text, &word) && decimal_of(word, n);
}

bool next_decimal_8(part *text, uint8_t *n)
{
    uint64_t wide;
    if (!next_decimal(text, &wide))
        return false;
    *n = to_8(wide);
    return true;
}

bool next_decimal_32(part *text, uint32_t *n)
{
    uint64_t wide;
    if (!next_decimal(text, &wide))
        return false;
    *n = to_32(wide);
    return true;
}

bool next_hex_byte(part *text, uint8_t *byte)
{
    part word;
    return next_word(text, &word) && hex_byte_of(word, byte);
}

/* ---- Hex ---- */

static bool is_between(uint8_t c)
{
    return is_white(c) || c == ',';
}

/* Takes the next group of digits off a text, without its 0x, and counts the lines that are passed. */
static bool next_group(part *text, part *group, size_t *line)
{
    size_t start = 0;
    while (start < text->len && is_between(text->at[start]))
        *line += text->at[start++] == '\n';
    size_t end = start;
    while (end < text->len && !is_between(text->at[end]))
        end++;
    part all = { behind(*text, start).at, end - start };
    *text = behind(*text, end);
    bool is_marked = all.len >= 2 && all.at[0] == '0' && (all.at[1] == 'x' || all.at[1] == 'X');
    *group = is_marked ? behind(all, 2) : all;
    return all.len > 0;
}

/* Whether a group is digits, one at least. */
static bool is_hex(part group)
{
    for (size_t i = 0; i < group.len; i++)
        if (digit_of(group.at[i]) == NO_DIGIT)
            return false;
    return group.len > 0;
}

static uint16_t word_at(part group, size_t start, size_t digits)
{
    unsigned word = 0;
    for (size_t i = start; i < start + digits; i++)
        word = word * 16 + digit_of(group.at[i]);
    return (uint16_t)word;
}

static const char not_hex[] = "this is no hex";

fault put_hex_text(bytes *to, part text)
{
    part group;
    size_t line = 1;
    while (next_group(&text, &group, &line)) {
        if (!is_hex(group))
            return (fault){ not_hex, line };
        if (group.len % 2 != 0)
            return (fault){ "a byte has two hex digits, and here one is left over", line };
        for (size_t i = 0; i < group.len; i += 2)
            put_byte(to, (uint8_t)word_at(group, i, 2));
    }
    return (fault){ NULL, 0 };
}

fault put_hex_words(bytes *to, part text)
{
    part group;
    size_t line = 1;
    while (next_group(&text, &group, &line)) {
        if (!is_hex(group))
            return (fault){ not_hex, line };
        size_t digits = group.len < 4 ? group.len : 4;
        if (group.len % digits != 0)
            return (fault){ "a run of words has four hex digits for each, and here some are left over", line };
        for (size_t i = 0; i < group.len; i += digits) {
            uint16_t word = word_at(group, i, digits);
            put(to, &word, sizeof word);
        }
    }
    return (fault){ NULL, 0 };
}
