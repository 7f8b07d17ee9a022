/*
 * GA94 units that another encoder wrote, read by the library.
 *
 * reread write IN OUT: the pictures of a stream, many times over, with random GA94 records behind their headers.
 * reread read FILE NAME: FILE is what the encoder of that name made of OUT, picture by picture in the same order. Its areas are read
 * and compared with the records, which are the same in both runs.
 */
#include "carriage.h"

#include <stdio.h>
#include <stdlib.h>
#include <string.h>

enum { ROUNDS = 20 };

static struct area area;
static struct triples triples;

static int write_stream(const char *in, const char *out)
{
    struct stream s = stream_load(in);
    FILE *file = fopen(out, "wb");
    if (!file)
        return 2;
    for (size_t k = 0; k < ROUNDS * s.n; k++) {
        area.len = 0;
        ga94.random(&area, &triples, &s.pictures[k % s.n], false);
        struct bytes b = picture_with_area(&s, k % s.n, area.data, area.len);
        fwrite(b.data, 1, b.len, file);
        free(b.data);
    }
    return fclose(file) != 0;
}

static struct {
    size_t pictures, units, refused, in, out, equal, other_count;
    size_t em_flag, cc_flag, em_data_ff, stuffing;
} tally;

static void read_picture(const uint8_t *data, size_t len)
{
    captions_ga94_record records[MAX_RECORDS];
    captions_ga94_unit u = captions_ga94_read(data, len, records);
    tally.pictures++;
    tally.units += u.present;
    tally.refused += u.refusal.number != 0;
    tally.in += triples.n;
    tally.out += u.n;
    tally.other_count += u.n != triples.n;
    for (size_t i = 0; i < u.n && i < triples.n; i++) {
        const uint8_t *t = triples.of[i];
        const captions_ga94_record *r = &records[i];
        tally.equal += r->cc_valid == t[0] >> 2 && r->cc_type == (t[0] & 3) && r->cc_data_1 == t[1] && r->cc_data_2 == t[2];
    }
    tally.em_flag += u.present && u.process_em_data_flag == 1;
    tally.cc_flag += u.present && u.process_cc_data_flag == 1;
    tally.em_data_ff += u.present && u.em_data == 0xFF;
    tally.stuffing += u.present && u.z > 0;
}

static int read_stream(const char *path, const char *name)
{
    struct stream s = stream_load(path);
    printf("== GA94 units that %s wrote, read by the library\n", name);
    for (size_t k = 0; k < s.n; k++) {
        size_t len;
        const uint8_t *data = area_of_picture(&s, k, &len);
        area.len = 0;
        ga94.random(&area, &triples, &s.pictures[k], false);
        read_picture(data, len);
    }
    printf("pictures %zu, units %zu, refused %zu; records given %zu, read %zu, equal %zu\n", tally.pictures, tally.units, tally.refused,
           tally.in, tally.out, tally.equal);
    printf("of the units: process_em_data_flag 1 in %zu, process_cc_data_flag 1 in %zu, em_data FF in %zu, stuffing in %zu\n",
           tally.em_flag, tally.cc_flag, tally.em_data_ff, tally.stuffing);
    printf("SUMMARY GA94 units of %s: pictures %zu, records checked %zu, equal %zu, differences %zu\n", name, tally.pictures, tally.in,
           tally.equal, tally.in - tally.equal + tally.other_count);
    return tally.refused != 0 || tally.other_count != 0 || tally.equal != tally.in || tally.in == 0;
}

int main(int argc, char **argv)
{
    if (argc != 4)
        return 2;
    return strcmp(argv[1], "write") == 0 ? write_stream(argv[2], argv[3]) : read_stream(argv[2], argv[3]);
}
