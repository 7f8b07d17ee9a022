/* areas.c: see areas.h. */
#include "areas.h"

#include <stdio.h>
#include <stdlib.h>
#include <string.h>

/* An area, and the values that are put into it. */
typedef struct stream_area {
    const uint8_t *bytes;
    size_t len;
    unit_value unit;
    ga94_value ga94;
} stream_area;

static stream_area *areas;
static size_t count;

/* ---- Loading ---- */

static size_t length_at(const uint8_t *s)
{
    return (size_t)s[0] | (size_t)s[1] << 8 | (size_t)s[2] << 16 | (size_t)s[3] << 24;
}

/* The whole file, or null. */
static uint8_t *bytes_of(const char *path, size_t *len)
{
    uint8_t *bytes = NULL;
    FILE *f = fopen(path, "rb");
    if (f != NULL && fseek(f, 0, SEEK_END) == 0) {
        long end = ftell(f);
        rewind(f);
        bytes = end > 0 ? malloc((size_t)end) : NULL;
        if (bytes != NULL && fread(bytes, 1, (size_t)end, f) != (size_t)end) {
            free(bytes);
            bytes = NULL;
        }
        *len = (size_t)end;
    }
    if (f != NULL) {
        fclose(f);
    }
    return bytes;
}

/*
 * The values of an area are its own, so that a replacement has the area's length. Where a unit is missing, one of two
 * constructs or of twenty is put there, as there are in each of 29.97 pictures a second.
 */
static void make_values(stream_area *a)
{
    const calls *c = &plain_programs[0]->own;
    make_unit(&a->unit, 2, 0);
    make_ga94(&a->ga94, 20, 0);
    captions_record records[CAPTIONS_RECORDS];
    captions_unit unit = c->area_read(a->bytes, a->len, records);
    if (unit.present) {
        a->unit = (unit_value){unit.reserved, unit.vbi_data_flag, unit.n, unit.z, {{0}}};
        memcpy(a->unit.records, records, sizeof records);
    }
    captions_ga94_record triples[CAPTIONS_RECORDS];
    captions_ga94_unit ga94 = c->ga94_read(a->bytes, a->len, triples);
    if (ga94.present) {
        a->ga94 = (ga94_value){ga94.process_em_data_flag, ga94.process_cc_data_flag, 0, ga94.em_data, ga94.n, ga94.z,
                               {{0}}};
        memcpy(a->ga94.records, triples, sizeof triples);
    }
}

/* How many areas the file has, or 0 where it ends within one, or one is too long. */
static size_t count_areas(const uint8_t *s, size_t len)
{
    size_t n = 0;
    for (size_t at = 0; at < len; n++) {
        if (len - at < 4 || length_at(s + at) > CAPTIONS_AREA_BYTES || len - at - 4 < length_at(s + at)) {
            return 0;
        }
        at += 4 + length_at(s + at);
    }
    return n;
}

areas_told load_areas(const char *path)
{
    areas_told told = {0, SIZE_MAX, 0};
    size_t len = 0;
    const uint8_t *s = bytes_of(path, &len);
    count = s == NULL ? 0 : count_areas(s, len);
    areas = count == 0 ? NULL : calloc(count, sizeof *areas);
    if (areas == NULL) {
        fprintf(stderr, "bench: %s is no file of areas\n", path);
        return told;
    }
    restart(0);
    for (size_t i = 0; i < count; i++) {
        areas[i].bytes = s + 4;
        areas[i].len = length_at(s);
        s += 4 + areas[i].len;
        make_values(&areas[i]);
        told.least = areas[i].len < told.least ? areas[i].len : told.least;
        told.most = areas[i].len > told.most ? areas[i].len : told.most;
    }
    told.count = count;
    return told;
}

/* ---- Timing ---- */

static uint8_t out_bytes[CAPTIONS_AREA_BYTES];
static captions_record out_records[CAPTIONS_RECORDS];
static captions_ga94_record out_ga94[CAPTIONS_RECORDS];

/* Every answer goes in here, so that no call is without effect. */
static volatile uint64_t sink;

static const stream_area *next(const stream_area *a)
{
    return a + 1 == areas + count ? areas : a + 1;
}

static void run_area_read(const calls *c, size_t times)
{
    for (const stream_area *a = areas; times > 0; times--, a = next(a)) {
        sink += c->area_read(a->bytes, a->len, out_records).n + out_records[0].cc_data_1;
    }
}

static void run_area_replace(const calls *c, size_t times)
{
    for (const stream_area *a = areas; times > 0; times--, a = next(a)) {
        const unit_value *v = &a->unit;
        sink += c->area_replace(a->bytes, a->len, v->reserved, v->flag, v->n, v->z, v->records, out_bytes,
                                sizeof out_bytes).len;
    }
}

static void run_ga94_read(const calls *c, size_t times)
{
    for (const stream_area *a = areas; times > 0; times--, a = next(a)) {
        sink += c->ga94_read(a->bytes, a->len, out_ga94).n + out_ga94[0].cc_data_1;
    }
}

static void run_ga94_replace(const calls *c, size_t times)
{
    for (const stream_area *a = areas; times > 0; times--, a = next(a)) {
        const ga94_value *v = &a->ga94;
        sink += c->ga94_replace(a->bytes, a->len, v->em_flag, v->cc_flag, v->additional, v->em_data, v->n, v->z,
                                v->records, out_bytes, sizeof out_bytes).len;
    }
}

void run_on_areas(enum call call, const calls *c, size_t times)
{
    switch (call) {
    case AREA_READ:
        run_area_read(c, times);
        break;
    case AREA_REPLACE:
        run_area_replace(c, times);
        break;
    case GA94_READ:
        run_ga94_read(c, times);
        break;
    default:
        run_ga94_replace(c, times);
    }
}

/* ---- Comparing ---- */

bool agree_on_areas(enum call call, const calls *plain)
{
    static sample s;
    for (size_t i = 0; i < count; i++) {
        s.area.len = areas[i].len;
        memcpy(s.area.bytes, areas[i].bytes, areas[i].len);
        s.unit = areas[i].unit;
        s.ga94 = areas[i].ga94;
        if (!agree_on_sample(call, plain, &s)) {
            return false;
        }
    }
    return true;
}
