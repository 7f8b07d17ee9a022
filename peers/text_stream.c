/*
 * text_stream CARRIAGE IN OUT: puts a pop-on caption of line 21 behind the picture headers of a stream, one pair a picture.
 * CARRIAGE is scte20 or ga94.
 */
#include "carriage.h"

#include <stdio.h>
#include <stdlib.h>
#include <string.h>

/* Load, erase what is hidden, row 15, the text, show it. Control codes come twice. The parity is put on later. */
static const uint8_t pairs[][2] = {
    { 0x14, 0x20 }, { 0x14, 0x20 }, { 0x14, 0x2E }, { 0x14, 0x2E }, { 0x14, 0x60 }, { 0x14, 0x60 },
    { 'C', 'A' }, { 'P', 'T' }, { 'I', 'O' }, { 'N', 'S' }, { 0x14, 0x2F }, { 0x14, 0x2F },
};
enum { PAIRS = sizeof pairs / sizeof pairs[0] };

static uint8_t odd_parity(uint8_t byte)
{
    int ones = 0;
    for (int i = 0; i < 7; i++)
        ones += byte >> i & 1;
    return (uint8_t)((byte & 0x7F) | (ones % 2 ? 0 : 0x80));
}

static const uint8_t quiet[2] = { 0, 0 }, clear[2] = { 0x14, 0x2C };

static const uint8_t *pair_of(size_t picture, size_t pictures)
{
    return picture < PAIRS ? pairs[picture] : picture + 2 >= pictures ? clear : quiet;
}

int main(int argc, char **argv)
{
    static struct area a;
    static struct triples t;
    if (argc != 4)
        return 2;
    const struct carriage *carriage = strcmp(argv[1], "ga94") == 0 ? &ga94 : &scte20;
    struct stream s = stream_load(argv[2]);
    FILE *out = fopen(argv[3], "wb");
    if (!out)
        return 2;
    for (size_t k = 0; k < s.n; k++) {
        const uint8_t *pair = pair_of(k, s.n);
        carriage->one_pair(&a, &t, &s.pictures[k], odd_parity(pair[0]), odd_parity(pair[1]));
        struct bytes b = picture_with_area(&s, k, a.data, a.len);
        fwrite(b.data, 1, b.len, out);
        free(b.data);
    }
    return fclose(out) != 0;
}
