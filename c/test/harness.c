/* harness.c: see harness.h. */
#include "harness.h"

#include <string.h>

#include "film_runs.h"
#include "model.h"

const calls library_calls = {captions_area_read,    captions_unit_write,    captions_area_replace, captions_ga94_read,
                             captions_ga94_write,   captions_ga94_replace,  captions_packet_read,  captions_packet_write,
                             captions_multi_read,   captions_multi_write,   captions_pes_read,     captions_pes_write,
                             captions_pes_convert,  captions_pes_convert_value,
                             captions_payload_read, captions_payload_write, captions_reel_write,   captions_reel_write_bytes,
                             captions_film_picture, captions_film_close};
const calls model_calls = {model_area_read,    model_unit_write,    model_area_replace, model_ga94_read,
                           model_ga94_write,   model_ga94_replace,  model_packet_read,  model_packet_write,
                           model_multi_read,   model_multi_write,   model_pes_read,     model_pes_write,
                           model_pes_convert,  model_pes_convert_value,
                           model_payload_read, model_payload_write, model_reel_write,   model_reel_write_bytes,
                           model_film_picture, model_film_close};

const char *const operation_names[OPERATIONS] = {"area read",   "unit write",       "area replace", "ga94 read",
                                                 "ga94 write",  "ga94 replace",     "packet read",  "packet write",
                                                 "multi read",  "multi write",      "pes read",     "pes write",
                                                 "pes convert", "pes convertvalue", "payload read", "payload write",
                                                 "payload reel", "film run"};

/*
 * What one call is lent: an input, a second one (records, units, inner packets, or slots with rows apart), and one output. The
 * words beside inner packets that are written are the first input.
 */
static arena first_arena, second_arena, rows_arena, output_arena;

typedef struct loan {
    const void *first, *second, *rows; /* what the inputs must still hold after the call */
    size_t first_size, second_size, rows_size, output_size;
    uint8_t *first_lent, *second_lent, *rows_lent, *output_lent;
} loan;

void harness_open(void)
{
    arena_open(&first_arena, MULTI_LENT_MAX * sizeof(uint16_t)); /* more than INPUT_MAX */
    arena_open(&second_arena, MULTI_INNERS_MAX * sizeof(captions_inner)); /* more than the units of a reel */
    arena_open(&rows_arena, CAPTIONS_SLOTS * sizeof(captions_row));
    arena_open(&output_arena, OUTPUT_MAX);
    film_open();
    guard_catch();
}

bool is_writer(operation op)
{
    return takes_unit(op) || takes_ga94(op) || takes_packet(op) || op == MULTI_WRITE || op == PES_WRITE || op == PES_CONVERT ||
           op == PAYLOAD_WRITE || op == PAYLOAD_REEL;
}

bool takes_input(operation op)
{
    return (!is_writer(op) && op != FILM_RUN) || op == AREA_REPLACE || op == GA94_REPLACE || op == PES_CONVERT;
}

bool takes_words(operation op)
{
    return op == PACKET_READ || op == MULTI_READ || op == PES_CONVERT;
}

bool takes_unit(operation op)
{
    return op == UNIT_WRITE || op == AREA_REPLACE;
}

bool takes_ga94(operation op)
{
    return op == GA94_WRITE || op == GA94_REPLACE;
}

bool takes_packet(operation op)
{
    return op == PACKET_WRITE || op == PES_CONVERT_VALUE;
}

size_t element_bytes(operation op)
{
    return op == PACKET_WRITE || op == MULTI_WRITE ? 2 : 1;
}

/* ---- Lending ---- */

static size_t output_size(const question *q)
{
    switch (q->op) {
    case AREA_READ:
        return CAPTIONS_RECORDS * sizeof(captions_record);
    case GA94_READ:
        return CAPTIONS_RECORDS * sizeof(captions_ga94_record);
    case PACKET_READ:
        return CAPTIONS_SLOTS * sizeof(captions_row);
    case MULTI_READ:
        return CAPTIONS_INNERS * sizeof(captions_inner);
    case PES_READ:
        return CAPTIONS_PES_UNITS * sizeof(captions_data_unit);
    case PAYLOAD_READ:
        return CAPTIONS_ACCESS_UNITS * sizeof(captions_access_unit);
    default:
        return q->room * element_bytes(q->op);
    }
}

static void fill_pattern(const question *q, uint8_t *to, size_t size)
{
    if (element_bytes(q->op) == 2) {
        for (size_t i = 0; i < size / 2; i++) {
            uint16_t word = (uint16_t)(i * 37 + q->fill);
            memcpy(to + 2 * i, &word, 2);
        }
    } else {
        for (size_t i = 0; i < size; i++)
            to[i] = (uint8_t)(i * 37 + q->fill);
    }
}

static uint8_t *lend_copy(arena *a, side at, const void *from, size_t size)
{
    uint8_t *lent = arena_lend(a, at, size);

    memcpy(lent, from, size);
    return lent;
}

static void choose_inputs(const question *q, loan *l)
{
    l->first = takes_words(q->op) ? (const void *)q->words : q->bytes;
    l->first_size = takes_words(q->op) ? q->len * sizeof *q->words : takes_input(q->op) ? q->len : 0;
    l->second = q->unit.records;
    l->second_size = 0;
    l->rows = q->packet.rows;
    l->rows_size = 0;
    if (takes_unit(q->op)) {
        l->second_size = sizeof q->unit.records;
    } else if (takes_ga94(q->op)) {
        l->second = q->ga94.records;
        l->second_size = sizeof q->ga94.records;
    } else if (takes_packet(q->op)) {
        l->second = q->packet.slots;
        l->second_size = sizeof q->packet.slots;
        l->rows_size = sizeof q->packet.rows;
    } else if (q->op == MULTI_WRITE) {
        l->first = q->multi.words;
        l->first_size = q->multi.len * sizeof *q->multi.words;
        l->second = q->multi.inners;
        l->second_size = q->multi.n * sizeof *q->multi.inners;
    } else if (q->op == PES_WRITE) {
        l->second = q->pes.units;
        l->second_size = sizeof q->pes.units;
    } else if (q->op == PAYLOAD_WRITE) {
        l->second = q->payload.units;
        l->second_size = sizeof q->payload.units;
    } else if (q->op == PAYLOAD_REEL) {
        l->second = q->reel.units;
        l->second_size = q->reel.n * sizeof *q->reel.units + q->reel.stray;
    }
}

static void lend(const question *q, loan *l)
{
    choose_inputs(q, l);
    l->output_size = output_size(q);
    l->first_lent = lend_copy(&first_arena, q->at, l->first, l->first_size);
    l->second_lent = lend_copy(&second_arena, q->at, l->second, l->second_size);
    l->rows_lent = lend_copy(&rows_arena, q->at, l->rows, l->rows_size);
    l->output_lent = arena_lend(&output_arena, q->at, l->output_size);
    fill_pattern(q, l->output_lent, l->output_size);
}

static const char *damage_of(const loan *l)
{
    if (memcmp(l->first_lent, l->first, l->first_size) != 0)
        return "the input was changed";
    if (memcmp(l->second_lent, l->second, l->second_size) != 0 || memcmp(l->rows_lent, l->rows, l->rows_size) != 0)
        return "the values to write were changed";
    if (!arena_near_is_whole(&output_arena))
        return "bytes beside the output were changed";
    if (!arena_near_is_whole(&first_arena) || !arena_near_is_whole(&second_arena) || !arena_near_is_whole(&rows_arena))
        return "bytes beside an input were changed";
    return NULL;
}

static void take_back(void)
{
    arena_take_back(&first_arena);
    arena_take_back(&second_arena);
    arena_take_back(&rows_arena);
    arena_take_back(&output_arena);
}

/* ---- Asking ---- */

static void set_refusal(outcome *got, captions_refusal refusal)
{
    got->numbers[0] = refusal.number;
    got->numbers[1] = refusal.place;
}

static void set_written(outcome *got, captions_written answer)
{
    set_refusal(got, answer.refusal);
    got->numbers[2] = answer.len;
}

static void set_unit(outcome *got, captions_unit answer)
{
    uint8_t present;

    memcpy(&present, &answer.present, 1); /* a byte that is neither 0 nor 1 must show */
    set_refusal(got, answer.refusal);
    got->numbers[2] = present;
    got->numbers[3] = answer.reserved;
    got->numbers[4] = answer.vbi_data_flag;
    got->numbers[5] = answer.n;
    got->numbers[6] = answer.z;
}

static void set_ga94(outcome *got, captions_ga94_unit answer)
{
    uint8_t present;

    memcpy(&present, &answer.present, 1);
    set_refusal(got, answer.refusal);
    got->numbers[2] = present;
    got->numbers[3] = answer.process_em_data_flag;
    got->numbers[4] = answer.process_cc_data_flag;
    got->numbers[5] = answer.additional_data_flag;
    got->numbers[6] = answer.em_data;
    got->numbers[7] = answer.n;
    got->numbers[8] = answer.z;
}

static void set_packet(outcome *got, captions_packet answer)
{
    set_refusal(got, answer.refusal);
    got->numbers[2] = answer.counter;
    for (size_t i = 0; i < CAPTIONS_SLOTS; i++) {
        got->numbers[3 + 4 * i] = answer.slots[i].full;
        got->numbers[4 + 4 * i] = answer.slots[i].line;
        got->numbers[5 + 4 * i] = answer.slots[i].reserved;
        got->numbers[6 + 4 * i] = answer.slots[i].field;
    }
}

static void set_multi(outcome *got, captions_multi answer)
{
    set_refusal(got, answer.refusal);
    got->numbers[2] = answer.priority;
    got->numbers[3] = answer.n;
}

static void set_pes(outcome *got, captions_pes answer)
{
    set_refusal(got, answer.refusal);
    got->numbers[2] = answer.data_identifier;
    got->numbers[3] = answer.n;
}

static void set_payload(outcome *got, captions_payload answer)
{
    set_refusal(got, answer.refusal);
    got->numbers[2] = answer.flags;
    got->numbers[3] = answer.m;
}

/* Not to the model: in C no null pointer may be moved, not even by 0. */
static void *given(const calls *who, const question *q, uint8_t *lent, size_t size)
{
    return q->nulls && size == 0 && who != &model_calls ? NULL : lent;
}

static void call(const calls *who, const question *q, const loan *l, outcome *got)
{
    const unit_value *u = &q->unit;
    const ga94_value *g = &q->ga94;
    const multi_value *m = &q->multi;
    const reel_value *r = &q->reel;
    void *output = given(who, q, l->output_lent, l->output_size);
    const void *first = given(who, q, l->first_lent, l->first_size), *second = given(who, q, l->second_lent, l->second_size);
    const void *rows = l->rows_lent;

    switch (q->op) {
    case AREA_READ:
        set_unit(got, who->area_read(first, q->len, output));
        break;
    case UNIT_WRITE:
        set_written(got, who->unit_write(u->reserved, u->vbi_data_flag, u->n, u->z, second, output, q->room));
        break;
    case AREA_REPLACE:
        set_written(got, who->area_replace(first, q->len, u->reserved, u->vbi_data_flag, u->n, u->z, second, output, q->room));
        break;
    case GA94_READ:
        set_ga94(got, who->ga94_read(first, q->len, output));
        break;
    case GA94_WRITE:
        set_written(got, who->ga94_write(g->process_em_data_flag, g->process_cc_data_flag, g->additional_data_flag, g->em_data,
                                         g->n, g->z, second, output, q->room));
        break;
    case GA94_REPLACE:
        set_written(got, who->ga94_replace(first, q->len, g->process_em_data_flag, g->process_cc_data_flag,
                                           g->additional_data_flag, g->em_data, g->n, g->z, second, output, q->room));
        break;
    case PACKET_READ:
        set_packet(got, who->packet_read(first, q->len, output));
        break;
    case PACKET_WRITE:
        set_written(got, who->packet_write(q->packet.counter, second, rows, output, q->room));
        break;
    case MULTI_READ:
        set_multi(got, who->multi_read(first, q->len, output));
        break;
    case MULTI_WRITE:
        set_written(got, who->multi_write(m->priority, second, m->n, first, m->len, output, q->room));
        break;
    case PES_READ:
        set_pes(got, who->pes_read(first, q->len, output));
        break;
    case PES_WRITE:
        set_written(got, who->pes_write(q->pes.data_identifier, q->pes.n, second, output, q->room));
        break;
    case PES_CONVERT:
        set_written(got, who->pes_convert(first, q->len, output, q->room));
        break;
    case PES_CONVERT_VALUE:
        set_written(got, who->pes_convert_value(q->packet.counter, second, rows, output, q->room));
        break;
    case PAYLOAD_READ:
        set_payload(got, who->payload_read(first, q->len, output));
        break;
    case PAYLOAD_WRITE:
        set_written(got, who->payload_write(q->payload.flags, q->payload.m, second, output, q->room));
        break;
    case PAYLOAD_REEL:
        if (q->as_bytes)
            set_written(got, who->reel_write_bytes(r->flags, r->size, second, l->second_size, output, q->room));
        else
            set_written(got, who->reel_write(r->flags, r->size, second, r->n, output, q->room));
        break;
    case FILM_RUN: /* see film_ask */
    case OPERATIONS:
        break;
    }
}

static bool spoil_byte(uint8_t *from, size_t size, size_t i)
{
    if (i >= size)
        return false;
    from[i] ^= 1;
    return true;
}

static bool do_spoil(spoil spoiling, const question *q, const loan *l, const outcome *got)
{
    size_t written = is_writer(q->op) ? (size_t)got->numbers[2] * element_bytes(q->op) : l->output_size;

    switch (spoiling) {
    case SPOIL_BESIDE_OUTPUT:
        *(q->at == AT_END ? l->output_lent - 1 : l->output_lent + l->output_size) ^= 1;
        return true;
    case SPOIL_BEHIND_LENGTH:
        return spoil_byte(l->output_lent, l->output_size, got->numbers[0] != 0 ? 0 : written);
    case SPOIL_LAST:
        return l->output_size > 0 && spoil_byte(l->output_lent, l->output_size, l->output_size - 1);
    case SPOIL_FIRST_INPUT:
        return spoil_byte(l->first_lent, l->first_size, l->first_size / 2);
    case SPOIL_SECOND_INPUT:
        return spoil_byte(l->second_lent, l->second_size, l->second_size / 2);
    case SPOIL_STATE:
    case SPOIL_BESIDE_STATE:
        return false;
    default:
        return true;
    }
}

static size_t number_count(operation op)
{
    static const size_t counts[OPERATIONS] = {7, 3, 3, 9, 3, 3, 23, 3, 4, 3, 4, 3, 3, 3, 4, 3, 3, 0};

    return counts[op];
}

bool ask(const calls *who, const question *q, spoil spoiling, outcome *got)
{
    loan l;
    bool spoilt;

    if (q->op == FILM_RUN)
        return film_ask(who, q, spoiling, got);
    lend(q, &l);
    got->count = number_count(q->op);
    call(who, q, &l, got);
    spoilt = do_spoil(spoiling, q, &l, got);
    got->size = l.output_size;
    memcpy(got->memory, l.output_lent, l.output_size);
    got->damage = damage_of(&l);
    take_back();
    return spoilt;
}

void outcome_begin(const question *q, outcome *o)
{
    if (q->op == FILM_RUN) {
        film_begin(q, o);
        return;
    }
    o->count = number_count(q->op);
    memset(o->numbers, 0, sizeof o->numbers);
    o->size = output_size(q);
    fill_pattern(q, o->memory, o->size);
    o->damage = NULL;
}

bool arenas_are_whole(void)
{
    return arena_is_whole(&first_arena) && arena_is_whole(&second_arena) && arena_is_whole(&rows_arena) &&
           arena_is_whole(&output_arena) && film_arenas_are_whole();
}
