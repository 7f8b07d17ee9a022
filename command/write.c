/* The verbs that write a unit: into an area, or a data field of a packet. */
#include "files.h"
#include "input.h"
#include "text.h"
#include "verbs.h"

#include "unit_words.h"

/* ---- The value of a unit in words ---- */

bool unit_of(part *text, told_unit *told)
{
    *told = (told_unit){ 0 };
    if (!next_decimal_32(text, &told->reserved) || !next_decimal_32(text, &told->vbi_data_flag) ||
        !next_decimal(text, &told->z))
        return false;
    while (!is_blank(*text)) {
        captions_record r;
        if (!next_decimal_8(text, &r.cc_priority) || !next_decimal_8(text, &r.field_number) ||
            !next_decimal_8(text, &r.line_offset) || !next_hex_byte(text, &r.cc_data_1) ||
            !next_hex_byte(text, &r.cc_data_2))
            return false;
        if (told->n < CAPTIONS_RECORDS)
            told->records[told->n] = r;
        told->n++;
    }
    return true;
}

bool ga94_of(part *text, told_ga94 *told)
{
    uint8_t em_data;
    *told = (told_ga94){ 0 };
    if (!next_decimal_32(text, &told->process_em_data_flag) || !next_decimal_32(text, &told->process_cc_data_flag) ||
        !next_decimal_32(text, &told->additional_data_flag) || !next_hex_byte(text, &em_data) ||
        !next_decimal(text, &told->z))
        return false;
    told->em_data = em_data;
    while (!is_blank(*text)) {
        captions_ga94_record r;
        if (!next_decimal_8(text, &r.cc_valid) || !next_decimal_8(text, &r.cc_type) ||
            !next_hex_byte(text, &r.cc_data_1) || !next_hex_byte(text, &r.cc_data_2))
            return false;
        if (told->n < CAPTIONS_RECORDS)
            told->records[told->n] = r;
        told->n++;
    }
    return true;
}

static bool tells_unit(part *text, void *told)
{
    return unit_of(text, told);
}

static bool tells_ga94(part *text, void *told)
{
    return ga94_of(text, told);
}

/* Reads the words of the new unit, from the argument or from their file. `form` says what they have to be. */
static outcome take_unit(const options *o, bool (*tells)(part *text, void *told), void *told, const char *form)
{
    bytes unit = { 0 };
    int error = 0;
    if (o->unit == NULL)
        error = read_file(o->unit_file, &unit);
    part text = o->unit != NULL ? part_of(o->unit) : (part){ unit.at, unit.len };
    part rest = text;
    outcome taken = accepted();
    if (error != 0)
        taken = failed(error, name_of(o->unit_file));
    else if (!tells(&rest, told))
        /* An argument has no lines. */
        taken = o->unit != NULL ? misused(form, NULL) : misread(form, name_of(o->unit_file), line_of(text, rest));
    release(&unit);
    return taken;
}

/* ---- Replacing ---- */

/* Puts the area out that was written, or tells why it was not. */
static outcome hand_out(const options *o, bytes *out, const uint8_t *from, captions_written written)
{
    if (is_refusal(written.refusal))
        return refused(written.refusal, input_name(o));
    put_output(o, out, from, written.len);
    return accepted();
}

/* The words of the value are judged before a byte of the area is read. */
outcome replace_unit(const options *o, bytes *out)
{
    told_unit told;
    bytes in = { 0 };
    outcome taken = take_unit(o, tells_unit, &told,
                              "a unit is RESERVED FLAG Z, and PRIORITY FIELD LINE DATA DATA for each construct");
    if (is_accepted(taken))
        taken = take_bytes(o, &in);
    if (is_accepted(taken)) {
        uint8_t area[CAPTIONS_AREA_BYTES];
        taken = hand_out(o, out, area,
                         captions_area_replace(in.at, in.len, told.reserved, told.vbi_data_flag, told.n, told.z,
                                               told.records, area, sizeof area));
    }
    release(&in);
    return taken;
}

outcome replace_ga94(const options *o, bytes *out)
{
    told_ga94 told;
    bytes in = { 0 };
    outcome taken = take_unit(o, tells_ga94, &told,
                              "a GA94 unit is PROCESS_EM PROCESS_CC ADDITIONAL EM_DATA Z, and VALID TYPE DATA DATA for "
                              "each construct");
    if (is_accepted(taken))
        taken = take_bytes(o, &in);
    if (is_accepted(taken)) {
        uint8_t area[CAPTIONS_AREA_BYTES];
        taken = hand_out(o, out, area,
                         captions_ga94_replace(in.at, in.len, told.process_em_data_flag, told.process_cc_data_flag,
                                               told.additional_data_flag, told.em_data, told.n, told.z, told.records,
                                               area, sizeof area));
    }
    release(&in);
    return taken;
}

/* ---- Converting ---- */

static outcome put_converted(const options *o, const words *in, bytes *out)
{
    uint8_t field[CAPTIONS_PES_BYTES];
    captions_written written = captions_pes_convert(in->at, in->len, field, sizeof field);
    written.refusal = with_half(in, written.refusal);
    return hand_out(o, out, field, written);
}

outcome convert_to_pes(const options *o, bytes *out)
{
    return with_words(o, put_converted, out);
}
