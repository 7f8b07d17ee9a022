/*
 * make_areas CARRIAGE STREAM..: the library's side of the picture area. Prints the areas that area_test gives to a peer.
 * CARRIAGE is scte20 or ga94. The first stream is also the one for the defects: it has frame pictures, the top field first.
 *
 * A line begins with what is to be done with the pictures behind it (area_test.c has the list); a picture line has the bytes of an
 * area and, behind a space, the triples that a peer should hand on. - is no bytes.
 */
#include "carriage.h"
#include "lines.h"

#include <stdio.h>
#include <stdlib.h>
#include <string.h>

enum { ROUNDS = 20 };

static const struct carriage *carriage;
static struct area area;
static struct triples triples;

/* The area as it stands, and what is expected of it. */
static void print_picture(void)
{
    printf("picture ");
    print_bytes(area.data, area.len);
    printf(" ");
    print_bytes(triples.of[0], 3 * triples.n);
    printf("\n");
}

static void clear(void)
{
    area.len = 0;
    triples.n = 0;
}

static const char *base_name(const char *path)
{
    const char *slash = strrchr(path, '/');
    return slash ? slash + 1 : path;
}

static void equal_rounds(const struct stream *s, const char *path)
{
    for (int round = 0; round < ROUNDS; round++) {
        bool replace = round % 2;
        printf("equal %d %s\n", replace, base_name(path));
        for (size_t k = 0; k < s->n; k++) {
            clear();
            carriage->random(&area, &triples, &s->pictures[k], replace);
            print_picture();
        }
    }
    printf("tally %s\n", base_name(path));
}

/* One pair of field 1 a picture: 20 80, 21 80 and so on. */
static void fields(const struct stream *s, const char *path)
{
    size_t n = s->pictures[0].structure == 3 ? 2 : 6;
    printf("fields %s\n", base_name(path));
    for (size_t k = 0; k < n; k++) {
        clear();
        carriage->one_pair(&area, &triples, &s->pictures[k], (uint8_t)(0x20 + k), 0x80);
        print_picture();
    }
}

static void carried(void)
{
    for (uint32_t value = 0; value < carriage->carried_values; value++) {
        printf("carried %u\n", value);
        clear();
        carriage->with_carried(&area, value);
        print_picture();
    }
    printf("taken %s\n", carriage->carried);
}

/* ---- Both kinds in one stream. SCTE 20 has the pairs 20 80, 21 80 and so on, GA94 has 40 80, 41 80 and so on. ---- */

enum { MIXED_PICTURES = 4 };

/* The kinds of the units of an even and of an odd picture, in their order: S for SCTE 20, G for GA94. */
struct mixture {
    const char *what, *even, *odd;
};

static const struct mixture mixtures[] = {
    { "each picture SCTE 20, then GA94", "SG", "SG" },
    { "each picture GA94, then SCTE 20", "GS", "GS" },
    { "pictures by turns SCTE 20, GA94", "S", "G" },
    { "pictures by turns GA94, SCTE 20", "G", "S" },
};

static void mixed_area(const char *kinds, size_t k)
{
    clear();
    for (; *kinds; kinds++)
        (*kinds == 'S' ? &scte20 : &ga94)->put_pair(&area, (uint8_t)((*kinds == 'S' ? 0x20 : 0x40) + k), 0x80);
}

/* The first refusal of either reader in any picture of the mixture; 0 where there is none. */
static int mixed_refusal(const struct mixture *m)
{
    int number = 0, records;
    for (size_t k = 0; k < MIXED_PICTURES && number == 0; k++) {
        mixed_area(k % 2 ? m->odd : m->even, k);
        number = scte20.read(&area, &records);
        if (number == 0)
            number = ga94.read(&area, &records);
    }
    return number;
}

static void mixed(const char *path)
{
    for (size_t i = 0; i < sizeof mixtures / sizeof mixtures[0]; i++) {
        const struct mixture *m = &mixtures[i];
        printf("mixed %d %s %s\n", mixed_refusal(m), base_name(path), m->what);
        for (size_t k = 0; k < MIXED_PICTURES; k++) {
            mixed_area(k % 2 ? m->odd : m->even, k);
            print_picture();
        }
    }
}

static void observations(const struct stream *s)
{
    printf("past %s\n", carriage->name);
    clear();
    carriage->count_31(&area);
    print_picture();
    printf("plain\n");
    clear();
    carriage->one_pair(&area, &triples, &s->pictures[0], 0x80, 0x80);
    print_picture();
    for (size_t i = 0; i < carriage->case_count; i++) {
        const struct area_case *c = &carriage->cases[i];
        int records;
        clear();
        c->make(&area);
        int number = carriage->read(&area, &records);
        printf("case %d %d %d %s\n", c->number, number, records, c->what);
        print_picture();
    }
}

int main(int argc, char **argv)
{
    if (argc < 3)
        return 2;
    carriage = strcmp(argv[1], "ga94") == 0 ? &ga94 : &scte20;
    printf("carriage %s\n", carriage->name);
    for (int i = 2; i < argc; i++) {
        struct stream s = stream_load(argv[i]);
        equal_rounds(&s, argv[i]);
        free(s.data);
    }
    for (int i = 2; i < argc; i++) {
        struct stream s = stream_load(argv[i]);
        fields(&s, argv[i]);
        free(s.data);
    }
    struct stream s = stream_load(argv[2]);
    printf("stream %s\n", base_name(argv[2]));
    carried();
    observations(&s);
    if (carriage == &ga94)
        mixed(argv[2]);
    free(s.data);
    return fflush(stdout) != 0;
}
