#include "carriage.h"

#include <stdio.h>
#include <stdlib.h>
#include <string.h>

uint32_t random_below(uint32_t limit)
{
    static uint64_t state = 0x2545F4914F6CDD1D;
    state ^= state << 13;
    state ^= state >> 7;
    state ^= state << 17;
    return (uint32_t)(state >> 32) % limit;
}

void append(struct area *a, const void *data, size_t len)
{
    memcpy(a->data + a->len, data, len);
    a->len += len;
}

void append_afd(struct area *a) { APPEND(a, "\0\0\1\xB2" "DTG1\x41\xF8"); }

void append_group(struct area *a, uint8_t type) { append(a, (uint8_t[]){ 0, 0, 1, 0xB2, 3, type, 0x95, 0x20 }, 8); }

void must(captions_written w)
{
    if (w.refusal.number != 0) {
        fprintf(stderr, "the library refused a legal value: %d\n", w.refusal.number);
        exit(2);
    }
}

void must_refuse(captions_written w, uint8_t number)
{
    if (w.refusal.number != number) {
        fprintf(stderr, "the library did not refuse with %d: %d\n", number, w.refusal.number);
        exit(2);
    }
}
