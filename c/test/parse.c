/* parse.c: see parse.h. */
#include "parse.h"

#include <string.h>

#include "cursor.h"
#include "film_parse.h"

/* ---- `key=value` in the order in which FORMAT.md lists the fields ---- */

/* Goes to the value of the next field, which must be `key`. */
static void field(cursor *c, const char *key)
{
    need(c, ' ');
    for (; *key != '\0' && !c->bad; key++)
        need(c, *key);
    need(c, '=');
}

static uint64_t number_field(cursor *c, const char *key, uint64_t most)
{
    field(c, key);
    return c->bad ? 0 : take_number(c, most);
}

/* What an answer lists is all that it counts. A value to write may list more, and fewer where no list can have so many. */
typedef enum listing { ALL_COUNTED, MORE_ALLOWED } listing;

static void need_items(cursor *c, listing how, size_t counted, size_t most, size_t listed)
{
    if (how == ALL_COUNTED ? listed != counted : counted <= most && listed < counted)
        c->bad = true;
}

static void unit_fields(cursor *c, listing how, unit_value *to)
{
    memset(to->records, 0xFF, sizeof to->records); /* places that the line does not give are not to be looked at */
    to->reserved = (uint32_t)number_field(c, "reserved", UINT32_MAX);
    to->vbi_data_flag = (uint32_t)number_field(c, "flag", UINT32_MAX);
    to->n = number_field(c, "n", SIZE_MAX);
    field(c, "recs");
    need_items(c, how, to->n, CAPTIONS_RECORDS, take_record_list(c, to->records));
    to->z = number_field(c, "z", SIZE_MAX);
}

static void ga94_fields(cursor *c, listing how, ga94_value *to)
{
    memset(to->records, 0xFF, sizeof to->records);
    field(c, "flags");
    take_flags(c, to);
    to->n = number_field(c, "n", SIZE_MAX);
    to->em_data = (uint32_t)number_field(c, "em", UINT32_MAX);
    field(c, "recs");
    need_items(c, how, to->n, CAPTIONS_RECORDS, take_ga94_list(c, to->records));
    to->z = number_field(c, "z", SIZE_MAX);
}

static void packet_fields(cursor *c, packet_value *to)
{
    to->counter = (uint32_t)number_field(c, "counter", UINT32_MAX);
    field(c, "slots");
    take_slots(c, to);
}

/*
 * ` heads=` and ` words=` in place of ` inners=` are in no file: inner packets as C tells them, and the words that are lent
 * beside them, where user words may stand anywhere, and wrong ones too.
 */
static void multi_fields(cursor *c, multi_value *to)
{
    to->priority = (uint32_t)number_field(c, "priority", UINT32_MAX);
    if (strncmp(c->at, " heads=", 7) == 0) {
        field(c, "heads");
        take_head_list(c, to);
        field(c, "words");
        to->len = c->bad ? 0 : take_elements(c, 4, to->words, MULTI_LENT_MAX);
        return;
    }
    field(c, "inners");
    if (!c->bad)
        take_inner_list(c, to);
}

/*
 * As many units as are listed. A count of its own, ` n=`, is in no file: a value to write can have one that no list has.
 * Places that the line does not give would be refused if they were looked at.
 */
static void pes_fields(cursor *c, pes_value *to)
{
    bool counted;
    size_t listed;

    memset(to->units, 0xEE, sizeof to->units);
    to->data_identifier = (uint32_t)number_field(c, "identifier", UINT32_MAX);
    counted = strncmp(c->at, " n=", 3) == 0;
    to->n = counted ? number_field(c, "n", SIZE_MAX) : 0;
    field(c, "units");
    listed = take_data_unit_list(c, to->units);
    if (counted)
        need_items(c, MORE_ALLOWED, to->n, CAPTIONS_PES_UNITS, listed);
    else
        to->n = listed;
}

static void payload_fields(cursor *c, listing how, payload_value *to)
{
    memset(to->units, 0xFF, sizeof to->units);
    to->flags = (uint32_t)number_field(c, "flags", UINT32_MAX);
    to->m = number_field(c, "m", SIZE_MAX);
    field(c, "units");
    need_items(c, how, to->m, CAPTIONS_ACCESS_UNITS, take_unit_list(c, to->units, CAPTIONS_ACCESS_UNITS));
}

/* ` stray=` with 1 to 6 bytes, which no file has: a run that is told by bytes and ends within a unit. */
static void stray_field(cursor *c, reel_value *to)
{
    to->stray = 0;
    if (strncmp(c->at, " stray=", 7) != 0)
        return;
    field(c, "stray");
    to->stray = take_bytes(c, (uint8_t *)&to->units[to->n], sizeof *to->units - 1);
}

static void reel_fields(cursor *c, reel_value *to)
{
    to->flags = (uint32_t)number_field(c, "flags", UINT32_MAX);
    to->size = number_field(c, "size", SIZE_MAX);
    field(c, "units");
    to->n = take_unit_list(c, to->units, REEL_UNITS_MAX);
    if (to->n > REEL_UNITS_MAX)
        c->bad = true;
    else
        stray_field(c, to);
}

static void input_field(cursor *c, question *q)
{
    field(c, "in");
    if (takes_words(q->op))
        q->len = take_elements(c, 4, q->words, WORDS_MAX);
    else
        q->len = take_bytes(c, q->bytes, INPUT_MAX);
}

static void question_fields(cursor *c, question *q)
{
    if (takes_input(q->op))
        input_field(c, q);
    if (takes_unit(q->op))
        unit_fields(c, MORE_ALLOWED, &q->unit);
    if (takes_ga94(q->op))
        ga94_fields(c, MORE_ALLOWED, &q->ga94);
    if (takes_packet(q->op))
        packet_fields(c, &q->packet);
    if (q->op == MULTI_WRITE)
        multi_fields(c, &q->multi);
    if (q->op == PES_WRITE)
        pes_fields(c, &q->pes);
    if (q->op == PAYLOAD_WRITE)
        payload_fields(c, MORE_ALLOWED, &q->payload);
    if (q->op == PAYLOAD_REEL) {
        reel_fields(c, &q->reel);
        q->as_bytes = q->reel.stray > 0;
    }
    if (q->op == FILM_RUN) {
        field(c, "calls");
        take_film_calls(c, &q->film);
    }
    if (is_writer(q->op))
        q->room = number_field(c, "room", OUTPUT_MAX / element_bytes(q->op));
    if (*c->at != '\0')
        c->bad = true;
}

/* ---- The answer behind ` => ` ---- */

/*
 * `refused N at P`. What may follow as ` or P2` is of no use here: P is what RULES says. But where a data field is read, RULES
 * says P2, the byte at which the item begins.
 */
static void refused_answer(cursor *c, const question *q, outcome *to)
{
    bool second = q->op == PES_READ;

    to->numbers[0] = take_number(c, REFUSAL_MAX);
    for (const char *text = " at "; *text != '\0'; text++)
        need(c, *text);
    if (!c->bad)
        to->numbers[1] = take_number(c, SIZE_MAX);
    while (strncmp(c->at, " or ", 4) == 0) {
        uint64_t other;
        c->at += 4;
        other = take_number(c, SIZE_MAX);
        if (second)
            to->numbers[1] = other;
        second = false;
    }
    if (to->numbers[0] == 0)
        c->bad = true;
}

static void written_answer(cursor *c, const question *q, outcome *to)
{
    static uint16_t elements[OUTPUT_MAX];
    size_t len = number_field(c, "len", q->room), listed;

    field(c, "out");
    listed = c->bad ? 0 : take_elements(c, 2 * (unsigned)element_bytes(q->op), elements, q->room);
    if (c->wide || listed != len)
        c->bad = true;
    for (size_t i = 0; i < listed && !c->bad; i++) {
        if (element_bytes(q->op) == 2)
            memcpy(to->memory + 2 * i, &elements[i], 2);
        else
            to->memory[i] = (uint8_t)elements[i];
    }
    to->numbers[2] = len;
}

/* Room beyond the n records is zero in every accepted answer. */
static void unit_answer(cursor *c, outcome *to)
{
    unit_value value;

    unit_fields(c, ALL_COUNTED, &value);
    if (c->bad || c->wide || value.n > CAPTIONS_RECORDS) {
        c->bad = true;
        return;
    }
    memcpy(to->memory, value.records, value.n * sizeof *value.records);
    to->numbers[2] = 1;
    to->numbers[3] = value.reserved;
    to->numbers[4] = value.vbi_data_flag;
    to->numbers[5] = value.n;
    to->numbers[6] = value.z;
}

static void ga94_answer(cursor *c, outcome *to)
{
    ga94_value value;

    ga94_fields(c, ALL_COUNTED, &value);
    if (c->bad || c->wide || value.n > CAPTIONS_RECORDS) {
        c->bad = true;
        return;
    }
    memcpy(to->memory, value.records, value.n * sizeof *value.records);
    to->numbers[2] = 1;
    to->numbers[3] = value.process_em_data_flag;
    to->numbers[4] = value.process_cc_data_flag;
    to->numbers[5] = value.additional_data_flag;
    to->numbers[6] = value.em_data;
    to->numbers[7] = value.n;
    to->numbers[8] = value.z;
}

static void packet_answer(cursor *c, outcome *to)
{
    packet_value value;

    memset(&value, 0, sizeof value);
    packet_fields(c, &value);
    memcpy(to->memory, value.rows, sizeof value.rows);
    to->numbers[2] = value.counter;
    for (size_t i = 0; i < CAPTIONS_SLOTS; i++) {
        to->numbers[3 + 4 * i] = value.slots[i].full;
        to->numbers[4 + 4 * i] = value.slots[i].line;
        to->numbers[5 + 4 * i] = value.slots[i].reserved;
        to->numbers[6 + 4 * i] = value.slots[i].field;
    }
}

static void payload_answer(cursor *c, outcome *to)
{
    payload_value value;

    payload_fields(c, ALL_COUNTED, &value);
    if (c->bad || c->wide || value.m > CAPTIONS_ACCESS_UNITS) {
        c->bad = true;
        return;
    }
    memcpy(to->memory, value.units, value.m * sizeof *value.units);
    to->numbers[2] = value.flags;
    to->numbers[3] = value.m;
}

/*
 * Inner packet after inner packet from word 7 on. A line has their user bytes: these must be the words of the input, which the
 * answer points to.
 */
static void multi_answer(cursor *c, const question *q, outcome *to)
{
    static multi_value value;
    size_t at = LAYOUT_INNERS;

    multi_fields(c, &value);
    if (c->bad || c->wide || value.n > CAPTIONS_INNERS) {
        c->bad = true;
        return;
    }
    for (size_t i = 0; i < value.n; i++) {
        captions_inner inner = value.inners[i];
        const uint16_t *user = value.words + inner.at;
        inner.at = (uint16_t)(at + LAYOUT_NUSER);
        at += LAYOUT_INNER + (size_t)inner.count;
        if (at > q->len || memcmp(q->words + inner.at, user, inner.count * sizeof *user) != 0) {
            c->bad = true;
            return;
        }
        memcpy(to->memory + i * sizeof inner, &inner, sizeof inner);
    }
    to->numbers[2] = value.priority;
    to->numbers[3] = value.n;
}

static void pes_answer(cursor *c, outcome *to)
{
    pes_value value;

    pes_fields(c, &value);
    if (c->bad || c->wide || c->as_stuffing || value.n > CAPTIONS_PES_UNITS) {
        c->bad = true;
        return;
    }
    memcpy(to->memory, value.units, value.n * sizeof *value.units);
    to->numbers[2] = value.data_identifier;
    to->numbers[3] = value.n;
}

static void accepted_answer(cursor *c, const question *q, outcome *to)
{
    if (is_writer(q->op)) {
        written_answer(c, q, to);
        return;
    }
    memset(to->memory, 0, to->size); /* an accepted reader stores to all that it is lent */
    if ((q->op == AREA_READ || q->op == GA94_READ) && strcmp(c->at, " none") == 0)
        c->at += strlen(" none");
    else if (q->op == AREA_READ)
        unit_answer(c, to);
    else if (q->op == GA94_READ)
        ga94_answer(c, to);
    else if (q->op == PACKET_READ)
        packet_answer(c, to);
    else if (q->op == MULTI_READ)
        multi_answer(c, q, to);
    else if (q->op == PES_READ)
        pes_answer(c, to);
    else
        payload_answer(c, to);
}

static void answer(cursor *c, const question *q, outcome *to)
{
    outcome_begin(q, to);
    if (q->op == FILM_RUN && strncmp(c->at, "run ", 4) == 0) {
        c->at += 4;
        take_film_answers(c, q, to);
    } else if (q->op == FILM_RUN) {
        c->bad = true;
    } else if (strncmp(c->at, "refused ", 8) == 0) {
        c->at += 8;
        refused_answer(c, q, to);
    } else if (strncmp(c->at, "ok ", 3) == 0) {
        c->at += 2;
        accepted_answer(c, q, to);
    } else {
        c->bad = true;
    }
    if (*c->at != '\0' || c->wide)
        c->bad = true;
}

/* ---- A line ---- */

const char *kind_name(int kind)
{
    if (kind < OPERATIONS)
        return operation_names[kind];
    return kind == KIND_AREA_UNITS ? "area units" : "area cclist";
}

/* `CARRIAGE OPERATION ` at the front of a line: its kind, or -1. */
static int kind_of(const char *line, const char **behind)
{
    for (int kind = 0; kind < KINDS; kind++) {
        size_t len = strlen(kind_name(kind));
        if (strncmp(line, kind_name(kind), len) == 0 && line[len] == ' ') {
            *behind = line + len;
            return kind;
        }
    }
    return -1;
}

static parsed bad(vector_line *to, const char *why)
{
    to->why = why;
    return PARSED_BAD;
}

static parsed skipped(vector_line *to, const char *why)
{
    to->why = why;
    return PARSED_SKIPPED;
}

/*
 * ` STATE ` behind the operation: `1-8`, the rules with requests 1 to 8. By others the same input may have another answer.
 * Gives the TAG, or null.
 */
static const char *behind_state(const char *at)
{
    static const char state[] = " 1-8 ";

    return strncmp(at, state, strlen(state)) == 0 ? at + strlen(state) : NULL;
}

parsed parse_line(char *line, vector_line *to)
{
    char *arrow = strstr(line, " => ");
    cursor c = {NULL, false, false, false};

    to->kind = kind_of(line, &c.at);
    if (to->kind < 0)
        return bad(to, "an operation that is not known here");
    c.at = behind_state(c.at);
    if (c.at == NULL)
        return bad(to, "a state of the rules that is not known here");
    c.at = strchr(c.at, ' '); /* behind TAG, which has no meaning */
    if (c.at == NULL || arrow == NULL || c.at > arrow)
        return bad(to, "a line without its parts");
    if (to->kind == KIND_AREA_UNITS)
        return skipped(to, "captions.h has no call that lists units");
    if (to->kind == KIND_AREA_CCLIST)
        return skipped(to, "it is the text of the program cclist");
    *arrow = '\0';
    to->q.op = (operation)to->kind;
    to->q.fill = FILL;
    to->q.at = AT_END;
    to->q.nulls = false;
    question_fields(&c, &to->q);
    if (c.bad)
        return bad(to, "values that are not formed as they should be");
    if (c.wide)
        return skipped(to, "a number that the C type cannot hold");
    if (c.as_stuffing)
        return skipped(to, "teletext with the id of stuffing, which the C type takes for stuffing");
    c.at = arrow + strlen(" => ");
    answer(&c, &to->q, &to->expected);
    return c.bad ? bad(to, "an answer that is not formed as it should be") : PARSED_CASE;
}
