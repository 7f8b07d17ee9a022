/* runs.c: the twenty calls, to be timed and to be compared; see rows.h. */
#include "rows.h"

/* What the calls store to. */
static uint8_t out_bytes[CAPTIONS_AREA_BYTES];
static uint8_t out_reel[REEL_BYTES];
static uint16_t out_words[CAPTIONS_MULTI_WORDS];
static captions_record out_records[CAPTIONS_RECORDS];
static captions_ga94_record out_ga94[CAPTIONS_RECORDS];
static captions_row out_rows[CAPTIONS_SLOTS];
static captions_inner out_inners[CAPTIONS_INNERS];
static captions_data_unit out_data_units[CAPTIONS_PES_UNITS];
static captions_access_unit out_units[CAPTIONS_ACCESS_UNITS];

/* Every answer goes in here, so that no call is without effect. */
static volatile uint64_t sink;

/* ---- Each call, `times` over the samples in turn ---- */

static void run_area_read(const calls *c, const sample *samples, size_t times)
{
    for (size_t i = 0; i < times; i++) {
        const area_input *a = &samples[i % SAMPLES].area;
        captions_unit u = c->area_read(a->bytes, a->len, out_records);
        sink += u.n + u.refusal.number + out_records[0].cc_data_1;
    }
}

static void run_unit_write(const calls *c, const sample *samples, size_t times)
{
    for (size_t i = 0; i < times; i++) {
        const unit_value *v = &samples[i % SAMPLES].unit;
        sink += c->unit_write(v->reserved, v->flag, v->n, v->z, v->records, out_bytes, sizeof out_bytes).len;
    }
}

static void run_area_replace(const calls *c, const sample *samples, size_t times)
{
    for (size_t i = 0; i < times; i++) {
        const area_input *a = &samples[i % SAMPLES].area;
        const unit_value *v = &samples[i % SAMPLES].unit;
        sink += c->area_replace(a->bytes, a->len, v->reserved, v->flag, v->n, v->z, v->records, out_bytes,
                                sizeof out_bytes).len;
    }
}

static void run_ga94_read(const calls *c, const sample *samples, size_t times)
{
    for (size_t i = 0; i < times; i++) {
        const area_input *a = &samples[i % SAMPLES].area;
        captions_ga94_unit u = c->ga94_read(a->bytes, a->len, out_ga94);
        sink += u.n + u.refusal.number + out_ga94[0].cc_data_1;
    }
}

static void run_ga94_write(const calls *c, const sample *samples, size_t times)
{
    for (size_t i = 0; i < times; i++) {
        const ga94_value *v = &samples[i % SAMPLES].ga94;
        sink += c->ga94_write(v->em_flag, v->cc_flag, v->additional, v->em_data, v->n, v->z, v->records, out_bytes,
                              sizeof out_bytes).len;
    }
}

static void run_ga94_replace(const calls *c, const sample *samples, size_t times)
{
    for (size_t i = 0; i < times; i++) {
        const area_input *a = &samples[i % SAMPLES].area;
        const ga94_value *v = &samples[i % SAMPLES].ga94;
        sink += c->ga94_replace(a->bytes, a->len, v->em_flag, v->cc_flag, v->additional, v->em_data, v->n, v->z,
                                v->records, out_bytes, sizeof out_bytes).len;
    }
}

static void run_packet_read(const calls *c, const sample *samples, size_t times)
{
    for (size_t i = 0; i < times; i++) {
        const packet_input *p = &samples[i % SAMPLES].packet;
        sink += c->packet_read(p->words, p->len, out_rows).counter + out_rows[0].bytes[0];
    }
}

static void run_packet_write(const calls *c, const sample *samples, size_t times)
{
    for (size_t i = 0; i < times; i++) {
        const packet_value *v = &samples[i % SAMPLES].numbers;
        sink += c->packet_write(v->counter, v->slots, v->rows, out_words, CAPTIONS_PACKET_WORDS).len;
    }
}

static void run_multi_read(const calls *c, const sample *samples, size_t times)
{
    for (size_t i = 0; i < times; i++) {
        const multi_input *m = &samples[i % SAMPLES].multi;
        sink += c->multi_read(m->words, m->len, out_inners).n + out_inners[0].line;
    }
}

static void run_multi_write(const calls *c, const sample *samples, size_t times)
{
    for (size_t i = 0; i < times; i++) {
        const multi_value *v = &samples[i % SAMPLES].inners;
        sink += c->multi_write(v->priority, v->inners, v->n, v->words, v->len, out_words, CAPTIONS_MULTI_WORDS).len;
    }
}

static void run_pes_read(const calls *c, const sample *samples, size_t times)
{
    for (size_t i = 0; i < times; i++) {
        const pes_input *p = &samples[i % SAMPLES].pes;
        sink += c->pes_read(p->bytes, p->len, out_data_units).n + out_data_units[0].of.teletext.row[0];
    }
}

static void run_pes_write(const calls *c, const sample *samples, size_t times)
{
    for (size_t i = 0; i < times; i++) {
        const pes_value *v = &samples[i % SAMPLES].teletext;
        sink += c->pes_write(v->data_identifier, v->n, v->units, out_bytes, sizeof out_bytes).len;
    }
}

static void run_pes_convert(const calls *c, const sample *samples, size_t times)
{
    for (size_t i = 0; i < times; i++) {
        const packet_input *p = &samples[i % SAMPLES].packet;
        sink += c->pes_convert(p->words, p->len, out_bytes, sizeof out_bytes).len;
    }
}

static void run_pes_convert_value(const calls *c, const sample *samples, size_t times)
{
    for (size_t i = 0; i < times; i++) {
        const packet_value *v = &samples[i % SAMPLES].numbers;
        sink += c->pes_convert_value(v->counter, v->slots, v->rows, out_bytes, sizeof out_bytes).len;
    }
}

static void run_payload_read(const calls *c, const sample *samples, size_t times)
{
    for (size_t i = 0; i < times; i++) {
        const payload_input *p = &samples[i % SAMPLES].payload;
        sink += c->payload_read(p->bytes, p->len, out_units).m + out_units[0].padding;
    }
}

static void run_payload_write(const calls *c, const sample *samples, size_t times)
{
    for (size_t i = 0; i < times; i++) {
        const payload_value *v = &samples[i % SAMPLES].access;
        sink += c->payload_write(v->flags, v->m, v->units, out_bytes, sizeof out_bytes).len;
    }
}

static void run_reel_write(const calls *c, const sample *samples, size_t times)
{
    for (size_t i = 0; i < times; i++) {
        const reel_value *v = &samples[i % SAMPLES].reel;
        sink += c->reel_write(v->flags, v->size, v->units, v->n, out_reel, sizeof out_reel).len;
    }
}

static void run_reel_write_bytes(const calls *c, const sample *samples, size_t times)
{
    for (size_t i = 0; i < times; i++) {
        const reel_value *v = &samples[i % SAMPLES].reel;
        sink += c->reel_write_bytes(v->flags, v->size, (const uint8_t *)v->units, v->n * sizeof v->units[0], out_reel,
                                    sizeof out_reel).len;
    }
}

/* One run, from picture to picture. */
static void run_film_picture(const calls *c, const sample *samples, size_t times)
{
    captions_film film = {0};
    for (size_t i = 0; i < times; i++) {
        const film_value *v = &samples[i % SAMPLES].film;
        sink += c->film_picture(&film, v->top_field_first, v->repeat_first_field, v->line, v->unit.reserved,
                                v->unit.flag, v->unit.n, v->unit.z, v->unit.records, out_units).m +
                out_units[0].field1_data1;
    }
}

static void run_film_close(const calls *c, const sample *samples, size_t times)
{
    for (size_t i = 0; i < times; i++) {
        captions_film film = samples[i % SAMPLES].film.state;
        sink += c->film_close(&film, out_units).m + out_units[0].field1_data1;
    }
}

void run_call(enum call call, const calls *c, const sample *samples, size_t times)
{
    static void (*const runs[CALLS])(const calls *, const sample *, size_t) = {
        [AREA_READ] = run_area_read,
        [UNIT_WRITE] = run_unit_write,
        [AREA_REPLACE] = run_area_replace,
        [GA94_READ] = run_ga94_read,
        [GA94_WRITE] = run_ga94_write,
        [GA94_REPLACE] = run_ga94_replace,
        [PACKET_READ] = run_packet_read,
        [PACKET_WRITE] = run_packet_write,
        [MULTI_READ] = run_multi_read,
        [MULTI_WRITE] = run_multi_write,
        [PES_READ] = run_pes_read,
        [PES_WRITE] = run_pes_write,
        [PES_CONVERT] = run_pes_convert,
        [PES_CONVERT_VALUE] = run_pes_convert_value,
        [PAYLOAD_READ] = run_payload_read,
        [PAYLOAD_WRITE] = run_payload_write,
        [REEL_WRITE] = run_reel_write,
        [REEL_WRITE_BYTES] = run_reel_write_bytes,
        [FILM_PICTURE] = run_film_picture,
        [FILM_CLOSE] = run_film_close,
    };
    runs[call](c, samples, times);
}

/* ---- Comparing ---- */

bool agree_on_sample(enum call call, const calls *plain, const sample *s)
{
    switch (call) {
    case AREA_READ:
        return agree_area_read(plain, &s->area);
    case UNIT_WRITE:
        return agree_unit_write(plain, &s->unit, CAPTIONS_AREA_BYTES);
    case AREA_REPLACE:
        return agree_area_replace(plain, &s->area, &s->unit, CAPTIONS_AREA_BYTES);
    case GA94_READ:
        return agree_ga94_read(plain, &s->area);
    case GA94_WRITE:
        return agree_ga94_write(plain, &s->ga94, CAPTIONS_AREA_BYTES);
    case GA94_REPLACE:
        return agree_ga94_replace(plain, &s->area, &s->ga94, CAPTIONS_AREA_BYTES);
    case PACKET_READ:
        return agree_packet_read(plain, &s->packet);
    case PACKET_WRITE:
        return agree_packet_write(plain, &s->numbers, CAPTIONS_PACKET_WORDS);
    case MULTI_READ:
        return agree_multi_read(plain, &s->multi);
    case MULTI_WRITE:
        return agree_multi_write(plain, &s->inners, CAPTIONS_MULTI_WORDS);
    case PES_READ:
        return agree_pes_read(plain, &s->pes);
    case PES_WRITE:
        return agree_pes_write(plain, &s->teletext, CAPTIONS_AREA_BYTES);
    case PES_CONVERT:
        return agree_pes_convert(plain, &s->packet, CAPTIONS_AREA_BYTES);
    case PES_CONVERT_VALUE:
        return agree_pes_convert_value(plain, &s->numbers, CAPTIONS_AREA_BYTES);
    case PAYLOAD_READ:
        return agree_payload_read(plain, &s->payload);
    case PAYLOAD_WRITE:
        return agree_payload_write(plain, &s->access, CAPTIONS_AREA_BYTES);
    case REEL_WRITE:
        return agree_reel_write(plain, &s->reel, REEL_BYTES);
    case REEL_WRITE_BYTES:
        return agree_reel_write_bytes(plain, &s->reel, REEL_BYTES);
    case FILM_PICTURE:
        return agree_film_picture(plain, &s->film);
    default:
        return agree_film_close(plain, &s->film);
    }
}
