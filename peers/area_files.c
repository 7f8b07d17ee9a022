/*
 * Files of areas, for tools/bench-c --areas. Of each area a file has the length in four bytes, the least significant first, and the
 * bytes.
 *
 * area_files write IN OUT: the pictures of a stream, many times over, with captions as 29.97 pictures a second have them: GA94 with 20
 * constructs in each.
 * area_files take STREAM NAME ALONE BOTH: STREAM is what the encoder of that name made of OUT. ALONE gets its areas as they are, BOTH the
 * same with an SCTE 20 unit beside the GA94 unit, with the pairs of line 21.
 */
#include "carriage.h"

#include <stdio.h>
#include <stdlib.h>
#include <string.h>

enum { ROUNDS = 75, CONSTRUCTS = 20, CAPTION = 60 /* pictures from one caption to the next */ };

/* ---- Writing ---- */

static uint8_t odd_parity(uint8_t byte)
{
    int ones = 0;
    for (int i = 0; i < 7; i++)
        ones += byte >> i & 1;
    return (uint8_t)((byte & 0x7F) | (ones % 2 ? 0 : 0x80));
}

static uint8_t letter(void) { return (uint8_t)(random_below(6) == 0 ? ' ' : 'A' + random_below(26)); }

/* Line 21, field 1: load, erase what is hidden, row 15, 32 letters, show it; then nothing until the next caption. */
static captions_ga94_record pair_of(size_t k)
{
    static const uint8_t before[][2] = { { 0x14, 0x20 }, { 0x14, 0x20 }, { 0x14, 0x2E }, { 0x14, 0x2E }, { 0x14, 0x60 }, { 0x14, 0x60 } };
    enum { BEFORE = sizeof before / sizeof before[0], LETTERS = 16 };
    uint8_t pair[2] = { 0, 0 };
    if (k < BEFORE)
        memcpy(pair, before[k], 2);
    else if (k < BEFORE + LETTERS)
        pair[0] = letter(), pair[1] = letter();
    else if (k < BEFORE + LETTERS + 2)
        pair[0] = 0x14, pair[1] = 0x2F;
    return (captions_ga94_record){ 1, 0, odd_parity(pair[0]), odd_parity(pair[1]) };
}

/* Both fields of line 21, then a packet of DTVCC in every third picture, and constructs that are not valid. */
static void write_area(struct area *a, size_t k)
{
    captions_ga94_record records[MAX_RECORDS] = { 0 };
    records[0] = pair_of(k % CAPTION);
    records[1] = (captions_ga94_record){ 1, 1, 0x80, 0x80 };
    size_t packet = k % 3 == 0 ? 2 + 3 + random_below(8) : 2;
    for (size_t i = 2; i < packet; i++)
        records[i] = (captions_ga94_record){ 1, i == 2 ? 3 : 2, letter(), letter() };
    for (size_t i = packet; i < CONSTRUCTS; i++)
        records[i] = (captions_ga94_record){ 0, 2, 0, 0 };
    captions_written w = captions_ga94_write(1, 1, 0, 0xFF, CONSTRUCTS, 0, records, a->data, MAX_AREA);
    must(w);
    a->len = w.len;
}

static int write_stream(const char *in, const char *out)
{
    static struct area area;
    struct stream s = stream_load(in);
    FILE *file = fopen(out, "wb");
    if (!file)
        return 2;
    for (size_t k = 0; k < ROUNDS * s.n; k++) {
        write_area(&area, k);
        struct bytes b = picture_with_area(&s, k % s.n, area.data, area.len);
        fwrite(b.data, 1, b.len, file);
        free(b.data);
    }
    return fclose(file) != 0;
}

/* ---- Taking ---- */

static void put_area(FILE *file, const uint8_t *data, size_t len)
{
    uint8_t length[4] = { (uint8_t)len, (uint8_t)(len >> 8), (uint8_t)(len >> 16), (uint8_t)(len >> 24) };
    fwrite(length, 1, 4, file);
    fwrite(data, 1, len, file);
}

/* The pairs of line 21 that a GA94 unit has, one for each field, as SCTE 20 has them: line 11 of the offset, by fields. */
static size_t line_21(const captions_ga94_record *from, size_t n, captions_record *to)
{
    size_t m = 0;
    for (uint8_t type = 0; type < 2; type++)
        for (size_t i = 0; i < n; i++)
            if (from[i].cc_valid == 1 && from[i].cc_type == type) {
                to[m++] = (captions_record){ 0, (uint8_t)(type + 1), 11, from[i].cc_data_1, from[i].cc_data_2 };
                break;
            }
    return m;
}

static int take_areas(const char *path, const char *name, FILE *alone, FILE *both)
{
    static struct area with;
    struct stream s = stream_load(path);
    size_t areas = 0, units = 0, records = 0, least = SIZE_MAX, most = 0;
    for (size_t k = 0; k < s.n; k++) {
        captions_ga94_record triples[MAX_RECORDS];
        captions_record pairs[CAPTIONS_RECORDS] = { 0 };
        size_t len;
        const uint8_t *data = area_of_picture(&s, k, &len);
        captions_ga94_unit u = captions_ga94_read(data, len, triples);
        if (len == 0 || u.refusal.number != 0)
            continue;
        put_area(alone, data, len);
        captions_written w = captions_area_replace(data, len, 0, 1, line_21(triples, u.n, pairs), 0, pairs, with.data, MAX_AREA);
        must(w);
        put_area(both, with.data, w.len);
        areas++;
        units += u.present;
        records += u.n;
        least = len < least ? len : least;
        most = len > most ? len : most;
    }
    printf("SUMMARY areas of %s: pictures %zu, areas %zu of %zu to %zu bytes, GA94 units %zu, records %zu\n", name, s.n, areas, least, most,
           units, records);
    return areas != s.n || units != areas;
}

int main(int argc, char **argv)
{
    if (argc == 4 && strcmp(argv[1], "write") == 0)
        return write_stream(argv[2], argv[3]);
    if (argc != 6 || strcmp(argv[1], "take") != 0)
        return 2;
    FILE *alone = fopen(argv[4], "wb"), *both = fopen(argv[5], "wb");
    if (!alone || !both)
        return 2;
    int status = take_areas(argv[2], argv[3], alone, both);
    return fclose(alone) != 0 || fclose(both) != 0 || status != 0;
}
