/* The verbs that list a carriage: one call of the library, then a line for each thing that it handed out. */
#include "input.h"
#include "rows.h"
#include "verbs.h"

/* ---- Caption units of an area ---- */

static const char none[] = "none";

/* Where the area has no such unit. */
static void put_none(const options *o, bytes *out)
{
    if (o->is_json)
        put_head(out, true, ITEMS({ "present", TRUTH, false, NULL }));
    else
        put_title(out, false, none);
}

static void put_record(bytes *out, bool is_json, const captions_record *r)
{
    put_row(out, is_json,
            ITEMS({ "cc_priority", DECIMAL, r->cc_priority, NULL }, { "field_number", DECIMAL, r->field_number, NULL },
                  { "line_offset", DECIMAL, r->line_offset, NULL }, { "cc_data_1", HEX, r->cc_data_1, NULL },
                  { "cc_data_2", HEX, r->cc_data_2, NULL }));
}

static void put_unit(const options *o, bytes *out, const captions_unit *unit, const captions_record *records)
{
    if (o->is_value)
        put_row(out, false,
                ITEMS({ "reserved", DECIMAL, unit->reserved, NULL },
                      { "vbi_data_flag", DECIMAL, unit->vbi_data_flag, NULL }, { "z", DECIMAL, unit->z, NULL }));
    else
        put_head(out, o->is_json,
                 ITEMS({ "present", TRUTH, true, NULL }, { "reserved", QUIET, unit->reserved, NULL },
                       { "vbi_data_flag", QUIET, unit->vbi_data_flag, NULL }, { "n", QUIET, unit->n, NULL },
                       { "z", QUIET, unit->z, NULL }));
    if (!o->is_value)
        put_title(out, o->is_json, "priority field line data");
    for (size_t i = 0; i < unit->n; i++)
        put_record(out, o->is_json, &records[i]);
}

static outcome put_area(const options *o, const bytes *in, bytes *out)
{
    captions_record records[CAPTIONS_RECORDS];
    captions_unit unit = captions_area_read(in->at, in->len, records);
    if (is_refusal(unit.refusal))
        return refused(unit.refusal, input_name(o));
    if (unit.present)
        put_unit(o, out, &unit, records);
    else
        put_none(o, out);
    return accepted();
}

outcome list_area(const options *o, bytes *out)
{
    return with_bytes(o, put_area, out);
}

static void put_ga94_record(bytes *out, bool is_json, const captions_ga94_record *r)
{
    put_row(out, is_json,
            ITEMS({ "cc_valid", DECIMAL, r->cc_valid, NULL }, { "cc_type", DECIMAL, r->cc_type, NULL },
                  { "cc_data_1", HEX, r->cc_data_1, NULL }, { "cc_data_2", HEX, r->cc_data_2, NULL }));
}

static void put_ga94(const options *o, bytes *out, const captions_ga94_unit *unit, const captions_ga94_record *records)
{
    if (o->is_value)
        put_row(out, false,
                ITEMS({ "process_em_data_flag", DECIMAL, unit->process_em_data_flag, NULL },
                      { "process_cc_data_flag", DECIMAL, unit->process_cc_data_flag, NULL },
                      { "additional_data_flag", DECIMAL, unit->additional_data_flag, NULL },
                      { "em_data", HEX, unit->em_data, NULL }, { "z", DECIMAL, unit->z, NULL }));
    else
        put_head(out, o->is_json,
                 ITEMS({ "present", TRUTH, true, NULL },
                       { "process_em_data_flag", DECIMAL, unit->process_em_data_flag, NULL },
                       { "process_cc_data_flag", DECIMAL, unit->process_cc_data_flag, NULL },
                       { "additional_data_flag", QUIET, unit->additional_data_flag, NULL },
                       { "em_data", HEX, unit->em_data, NULL }, { "n", QUIET, unit->n, NULL },
                       { "z", QUIET, unit->z, NULL }));
    if (!o->is_value)
        put_title(out, o->is_json, "valid type data");
    for (size_t i = 0; i < unit->n; i++)
        put_ga94_record(out, o->is_json, &records[i]);
}

static outcome put_ga94_area(const options *o, const bytes *in, bytes *out)
{
    captions_ga94_record records[CAPTIONS_RECORDS];
    captions_ga94_unit unit = captions_ga94_read(in->at, in->len, records);
    if (is_refusal(unit.refusal))
        return refused(unit.refusal, input_name(o));
    if (unit.present)
        put_ga94(o, out, &unit, records);
    else
        put_none(o, out);
    return accepted();
}

outcome list_ga94(const options *o, bytes *out)
{
    return with_bytes(o, put_ga94_area, out);
}

/* ---- Packets ---- */

static void put_slot(bytes *out, bool is_json, size_t i, const captions_slot *s, const captions_row *row)
{
    put_row(out, is_json,
            ITEMS({ "slot", DECIMAL, i, NULL }, { "full", DECIMAL, s->full, NULL }, { "line", DECIMAL, s->line, NULL },
                  { "reserved", DECIMAL, s->reserved, NULL }, { "field", DECIMAL, s->field, NULL },
                  { "data", RUN, s->full == 0 ? 0 : CAPTIONS_ROW_BYTES, row->bytes }));
}

static outcome put_packet(const options *o, const words *in, bytes *out)
{
    captions_row rows[CAPTIONS_SLOTS];
    captions_packet packet = captions_packet_read(in->at, in->len, rows);
    captions_refusal refusal = with_half(in, packet.refusal);
    if (is_refusal(refusal))
        return refused(refusal, input_name(o));
    put_head(out, o->is_json, ITEMS({ "counter", DECIMAL, packet.counter, NULL }));
    put_title(out, o->is_json, "slot full line reserved field data");
    for (size_t i = 0; i < CAPTIONS_SLOTS; i++)
        put_slot(out, o->is_json, i, &packet.slots[i], &rows[i]);
    return accepted();
}

outcome list_packet(const options *o, bytes *out)
{
    return with_words(o, put_packet, out);
}

/* A user word is a byte below its two parity bits. */
static void put_inner(bytes *out, bool is_json, size_t i, const captions_inner *inner, const uint16_t *user)
{
    uint8_t data[CAPTIONS_MULTI_WORDS];
    for (size_t k = 0; k < inner->count; k++)
        data[k] = (uint8_t)user[k];
    put_row(out, is_json,
            ITEMS({ "inner", DECIMAL, i, NULL }, { "line", DECIMAL, inner->line, NULL },
                  { "field", DECIMAL, inner->field, NULL }, { "did", HEX, inner->did, NULL },
                  { "sdid", HEX, inner->sdid, NULL }, { "data", RUN, inner->count, data }));
}

static outcome put_multi(const options *o, const words *in, bytes *out)
{
    captions_inner inners[CAPTIONS_INNERS];
    captions_multi multi = captions_multi_read(in->at, in->len, inners);
    captions_refusal refusal = with_half(in, multi.refusal);
    if (is_refusal(refusal))
        return refused(refusal, input_name(o));
    put_head(out, o->is_json, ITEMS({ "priority", DECIMAL, multi.priority, NULL }, { "n", QUIET, multi.n, NULL }));
    put_title(out, o->is_json, "inner line field did sdid data");
    for (size_t i = 0; i < multi.n; i++)
        put_inner(out, o->is_json, i, &inners[i], in->at + inners[i].at);
    return accepted();
}

outcome list_multi(const options *o, bytes *out)
{
    return with_words(o, put_multi, out);
}

/* ---- Payloads ---- */

/* `which` is null, or the place of the payload among several. */
static captions_refusal put_payload(bytes *out, bool is_json, const uint8_t *at, size_t len, const size_t *which)
{
    captions_access_unit units[CAPTIONS_ACCESS_UNITS];
    captions_payload payload = captions_payload_read(at, len, units);
    if (is_refusal(payload.refusal))
        return payload.refusal;
    if (which == NULL)
        put_head(out, is_json, ITEMS({ "flags", HEX, payload.flags, NULL }, { "m", QUIET, payload.m, NULL }));
    else
        put_head(out, is_json,
                 ITEMS({ "payload", QUIET, *which, NULL }, { "flags", HEX, payload.flags, NULL },
                       { "m", QUIET, payload.m, NULL }));
    put_title(out, is_json, access_unit_title);
    for (size_t i = 0; i < payload.m; i++)
        put_access_unit(out, is_json, &units[i]);
    return payload.refusal;
}

static outcome put_one_payload(const options *o, const bytes *in, bytes *out)
{
    captions_refusal refusal = put_payload(out, o->is_json, in->at, in->len, NULL);
    return is_refusal(refusal) ? refused(refusal, input_name(o)) : accepted();
}

outcome list_payload(const options *o, bytes *out)
{
    return with_bytes(o, put_one_payload, out);
}

/* Cuts the payloads of `size` access units off the front, a flags byte and five bytes for each unit, and lists them. */
static outcome put_payloads(const options *o, const bytes *in, bytes *out)
{
    size_t longest = 1 + 5 * o->size;
    size_t which = 0;
    for (size_t at = 0; at < in->len; at += longest, which++) {
        size_t left = in->len - at;
        captions_refusal refusal = put_payload(out, o->is_json, in->at + at, left < longest ? left : longest, &which);
        if (is_refusal(refusal)) {
            outcome answer = refused(refusal, input_name(o));
            answer.in_payload = true;
            answer.payload = which;
            return answer;
        }
    }
    return accepted();
}

static outcome put_reel(const options *o, const bytes *in, bytes *out)
{
    /* The library judges a size in each reel, one of no units too. */
    captions_refusal refusal = captions_reel_write(0, o->size, NULL, 0, NULL, 0).refusal;
    return is_refusal(refusal) ? refused(refusal, input_name(o)) : put_payloads(o, in, out);
}

outcome list_reel(const options *o, bytes *out)
{
    return with_bytes(o, put_reel, out);
}

/* ---- Data fields ---- */

static void put_data_unit(bytes *out, bool is_json, size_t i, const captions_data_unit *unit)
{
    enum { STUFFING = 0xFF };
    const captions_teletext *teletext = &unit->of.teletext;
    if (unit->data_unit_id == STUFFING)
        put_row(out, is_json,
                ITEMS({ "unit", DECIMAL, i, NULL }, { "data_unit_id", HEX, STUFFING, NULL },
                      { "field_parity", DASH, 0, NULL }, { "line_offset", DASH, 0, NULL },
                      { "data", RUN, sizeof unit->of.stuffing, unit->of.stuffing }));
    else
        put_row(out, is_json,
                ITEMS({ "unit", DECIMAL, i, NULL }, { "data_unit_id", HEX, unit->data_unit_id, NULL },
                      { "field_parity", DECIMAL, teletext->field_parity, NULL },
                      { "line_offset", DECIMAL, teletext->line_offset, NULL },
                      { "data", RUN, CAPTIONS_ROW_BYTES, teletext->row }));
}

static outcome put_field(const options *o, const bytes *in, bytes *out)
{
    captions_data_unit units[CAPTIONS_PES_UNITS];
    captions_pes field = captions_pes_read(in->at, in->len, units);
    if (is_refusal(field.refusal))
        return refused(field.refusal, input_name(o));
    put_head(out, o->is_json,
             ITEMS({ "data_identifier", HEX, field.data_identifier, NULL }, { "n", QUIET, field.n, NULL }));
    put_title(out, o->is_json, "unit id parity line data");
    for (size_t i = 0; i < field.n; i++)
        put_data_unit(out, o->is_json, i, &units[i]);
    return accepted();
}

outcome list_pes(const options *o, bytes *out)
{
    return with_bytes(o, put_field, out);
}
