#include "bytes.h"

#include <stdlib.h>
#include <string.h>

bool reserve(bytes *b, size_t more)
{
    if (b->is_short)
        return false;
    if (more <= b->room - b->len)
        return true;
    if (more > SIZE_MAX / 4 || b->len > SIZE_MAX / 4) {
        b->is_short = true;
        return false;
    }
    size_t room = 2 * (b->len + more);
    uint8_t *at = realloc(b->at, room);
    if (at == NULL) {
        b->is_short = true;
        return false;
    }
    b->at = at;
    b->room = room;
    return true;
}

void put(bytes *b, const void *from, size_t len)
{
    /* memcpy may not be given a null pointer, and an empty run has one. */
    if (len == 0 || !reserve(b, len))
        return;
    memcpy(b->at + b->len, from, len);
    b->len += len;
}

void put_text(bytes *b, const char *text)
{
    put(b, text, strlen(text));
}

void put_byte(bytes *b, uint8_t byte)
{
    put(b, &byte, 1);
}

void put_decimal(bytes *b, uint64_t n)
{
    char digits[20];
    size_t first = sizeof digits;
    do {
        digits[--first] = (char)('0' + n % 10);
        n /= 10;
    } while (n > 0);
    put(b, digits + first, sizeof digits - first);
}

void put_hex(bytes *b, uint8_t byte)
{
    static const char digits[] = "0123456789ABCDEF";
    char two[2] = { digits[byte >> 4], digits[byte & 15] };
    put(b, two, 2);
}

void put_hex_run(bytes *b, const uint8_t *from, size_t len)
{
    for (size_t i = 0; i < len; i++)
        put_hex(b, from[i]);
}

void release(bytes *b)
{
    free(b->at);
    *b = (bytes){ 0 };
}
