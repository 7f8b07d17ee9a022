/* show.c: see show.h. */
#include "show.h"

#include <stdio.h>
#include <string.h>

static void show_bytes(const uint8_t *bytes, size_t len)
{
    if (len == 0)
        putchar('-');
    for (size_t i = 0; i < len; i++)
        printf("%02X", bytes[i]);
}

static void show_words(const uint8_t *memory, size_t words)
{
    if (words == 0)
        putchar('-');
    for (size_t i = 0; i < words; i++) {
        uint16_t word;
        memcpy(&word, memory + 2 * i, 2);
        printf("%04X", word);
    }
}

/* All 31 places: those beyond n have no meaning, and the line may hold them. */
static void show_records(const captions_record *records)
{
    for (size_t i = 0; i < CAPTIONS_RECORDS; i++) {
        const captions_record *r = &records[i];
        printf("%s%u.%u.%u.%02X%02X", i > 0 ? "," : "", r->cc_priority, r->field_number, r->line_offset, r->cc_data_1,
               r->cc_data_2);
    }
}

static void show_unit(const unit_value *u)
{
    printf(" reserved=%u flag=%u n=%zu recs=", u->reserved, u->vbi_data_flag, u->n);
    show_records(u->records);
    printf(" z=%zu", u->z);
}

static void show_ga94(const ga94_value *g)
{
    bool bits = g->process_em_data_flag <= 1 && g->process_cc_data_flag <= 1 && g->additional_data_flag <= 1;

    printf(bits ? " flags=%u%u%u" : " flags=%u.%u.%u", g->process_em_data_flag, g->process_cc_data_flag,
           g->additional_data_flag);
    printf(" n=%zu em=%u recs=", g->n, g->em_data);
    for (size_t i = 0; i < CAPTIONS_RECORDS; i++) {
        const captions_ga94_record *r = &g->records[i];
        printf("%s%u.%u.%02X%02X", i > 0 ? "," : "", r->cc_valid, r->cc_type, r->cc_data_1, r->cc_data_2);
    }
    printf(" z=%zu", g->z);
}

static void show_packet(const packet_value *p)
{
    printf(" counter=%u slots=", p->counter);
    for (size_t i = 0; i < CAPTIONS_SLOTS; i++) {
        const captions_slot *s = &p->slots[i];
        printf("%s%u.%u.%u.%u.", i > 0 ? "," : "", s->full, s->line, s->reserved, s->field);
        show_bytes(p->rows[i].bytes, CAPTIONS_ROW_BYTES);
    }
}

/* As C tells it: a line of the files has no user words that are wrong, or that stand nowhere. */
static void show_multi(const multi_value *m)
{
    printf(" priority=%u heads=%s", m->priority, m->n == 0 ? "-" : "");
    for (size_t i = 0; i < m->n; i++) {
        const captions_inner *h = &m->inners[i];
        printf("%s%u.%u.%u.%u.%u.%u", i > 0 ? "," : "", h->line, h->field, h->did, h->sdid, h->at, h->count);
    }
    printf(" words=");
    show_words((const uint8_t *)m->words, m->len);
}

static void show_data_unit(const captions_data_unit *u)
{
    const captions_teletext *t = &u->of.teletext;

    if (u->data_unit_id == LAYOUT_STUFFING_ID) {
        printf("S.");
        show_bytes(u->of.stuffing, sizeof u->of.stuffing);
    } else {
        printf("T.%u.%u.%u.", u->data_unit_id, t->field_parity, t->line_offset);
        show_bytes(t->row, sizeof t->row);
    }
}

/* A line counts its units by listing them. Where no list can have so many, all places are shown, and the count apart. */
static void show_pes(const pes_value *p)
{
    bool listed = p->n <= CAPTIONS_PES_UNITS;
    size_t count = listed ? p->n : CAPTIONS_PES_UNITS;

    printf(" identifier=%u", p->data_identifier);
    if (!listed)
        printf(" n=%zu", p->n);
    printf(count == 0 ? " units=-" : " units=");
    for (size_t i = 0; i < count; i++) {
        if (i > 0)
            putchar(',');
        show_data_unit(&p->units[i]);
    }
}

static void show_access_units(const captions_access_unit *units, size_t count)
{
    if (count == 0)
        putchar('-');
    for (size_t i = 0; i < count; i++) {
        const captions_access_unit *u = &units[i];
        printf("%s%u.%u.%u.%02X%02X%02X%02X", i > 0 ? "," : "", u->cc_valid_1, u->cc_valid_2, u->padding, u->field1_data1,
               u->field1_data2, u->field2_data1, u->field2_data2);
    }
}

static void show_payload(const payload_value *p)
{
    printf(" flags=%u m=%zu units=", p->flags, p->m);
    show_access_units(p->units, CAPTIONS_ACCESS_UNITS);
}

static void show_reel(const reel_value *r)
{
    printf(" flags=%u size=%zu units=", r->flags, r->size);
    show_access_units(r->units, r->n);
    if (r->stray > 0) {
        printf(" stray=");
        show_bytes((const uint8_t *)&r->units[r->n], r->stray);
    }
}

static void show_film(const film_run *run)
{
    printf(" calls=");
    for (size_t i = 0; i < run->count; i++) {
        const film_call *call = &run->calls[i];
        const unit_value *u = &call->unit;
        if (i > 0)
            putchar(';');
        if (call->puts_state)
            printf("state.%u.%u.%02X%02X;", call->state.waiting, call->state.cc_valid, call->state.cc_data_1,
                   call->state.cc_data_2);
        if (call->closes) {
            printf("close");
            continue;
        }
        printf("%u.%u.%u/%u.%u.%zu.%zu/", call->top_field_first, call->repeat_first_field, call->line_offset, u->reserved,
               u->vbi_data_flag, u->n, u->z);
        show_records(u->records);
    }
}

void show_question(const question *q, const char *tag)
{
    printf("%s 1-8 %s%s", operation_names[q->op], tag, q->op == PAYLOAD_REEL && q->as_bytes ? "-as-bytes" : "");
    if (takes_input(q->op)) {
        printf(" in=");
        if (takes_words(q->op))
            show_words((const uint8_t *)q->words, q->len);
        else
            show_bytes(q->bytes, q->len);
    }
    if (takes_unit(q->op))
        show_unit(&q->unit);
    if (takes_ga94(q->op))
        show_ga94(&q->ga94);
    if (takes_packet(q->op))
        show_packet(&q->packet);
    if (q->op == MULTI_WRITE)
        show_multi(&q->multi);
    if (q->op == PES_WRITE)
        show_pes(&q->pes);
    if (q->op == PAYLOAD_WRITE)
        show_payload(&q->payload);
    if (q->op == PAYLOAD_REEL)
        show_reel(&q->reel);
    if (q->op == FILM_RUN)
        show_film(&q->film);
    if (is_writer(q->op))
        printf(" room=%zu", q->room);
    putchar('\n');
}

void show_outcome(const question *q, const char *who, const outcome *o)
{
    printf("  %s:", who);
    for (size_t i = 0; i < o->count; i++)
        printf(" %llu", (unsigned long long)o->numbers[i]);
    printf("; output ");
    if (element_bytes(q->op) == 2)
        show_words(o->memory, o->size / 2);
    else
        show_bytes(o->memory, o->size);
    if (q->op == FILM_RUN) {
        printf("; states ");
        show_bytes((const uint8_t *)o->states, q->film.count * sizeof *o->states);
    }
    putchar('\n');
}
