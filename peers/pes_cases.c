/* Special data fields: pes_cases.h says what for. Most have three lines, A, B and C, whose rows repeat that letter. */
#include "pes_cases.h"

#include <stdbool.h>
#include <string.h>

/* Where the units begin: those of the plain data field, and the last of one that is cut short. */
enum { A = 1, B = A + UNIT_BYTES, C = B + UNIT_BYTES, CUT = C + UNIT_BYTES };

static captions_data_unit line(char row, uint8_t id, uint8_t field_parity, uint8_t line_offset)
{
    captions_data_unit u = { .data_unit_id = id };
    u.of.teletext.field_parity = field_parity;
    u.of.teletext.line_offset = line_offset;
    memset(u.of.teletext.row, row, ROW_BYTES);
    return u;
}

/* A stands on the undefined line, so that a peer which wants lines to rise has nothing against any line of B. */
static captions_data_unit line_a(void) { return line('A', 2, 1, 0); }
static captions_data_unit line_b(void) { return line('B', 3, 1, 9); }
static captions_data_unit line_c(void) { return line('C', 2, 0, 22); }

/* A, a unit, C and four stuffing units: with the PES header 368 bytes. */
static struct field around(captions_data_unit b)
{
    captions_data_unit s = stuffing(0xFF);
    return write_field(0x10, 7, (captions_data_unit[]){ line_a(), b, line_c(), s, s, s, s });
}

/* ---- Legal ones ---- */

static void plain(struct field *f, const struct pes_case *c, size_t variant)
{
    (void)c;
    (void)variant;
    *f = around(line_b());
}

/* The first units of the plain one, `at` of them, and one more with each variant. */
static void first_units(struct field *f, const struct pes_case *c, size_t variant)
{
    plain(f, c, variant);
    f->len = 1 + UNIT_BYTES * (c->at + variant);
}

/* 16 lines of the first field and 15 of the second. */
static void full(struct field *f, const struct pes_case *c, size_t variant)
{
    captions_data_unit units[MAX_UNITS];
    (void)c;
    (void)variant;
    for (uint8_t i = 0; i < MAX_UNITS; i++)
        units[i] = line('L', 3, i < 16, (uint8_t)(7 + i % 16));
    *f = write_field(0x10, MAX_UNITS, units);
}

/* Stuffing that looks like line B in its 44 bytes. */
static void like_a_line(struct field *f, const struct pes_case *c, size_t variant)
{
    captions_data_unit b = stuffing(0xFF);
    plain(f, c, variant);
    memcpy(b.of.stuffing, f->data + B, sizeof b.of.stuffing);
    *f = around(b);
}

/* The lines of B and C, each as the byte that tells field and line. */
static void lines(struct field *f, uint8_t b, uint8_t c)
{
    *f = around(line_b());
    f->data[B + 2] = b;
    f->data[C + 2] = c;
}
static void line_falls(struct field *f, const struct pes_case *c, size_t variant) { (void)c, (void)variant, lines(f, 0xF5, 0xE9); }
static void line_twice(struct field *f, const struct pes_case *c, size_t variant) { (void)c, (void)variant, lines(f, 0xE9, 0xE9); }
static void field_falls(struct field *f, const struct pes_case *c, size_t variant) { (void)c, (void)variant, lines(f, 0xC7, 0xE9); }
static void undefined_falls(struct field *f, const struct pes_case *c, size_t variant) { (void)c, (void)variant, lines(f, 0xC0, 0xE0); }
static void undefined_then_9(struct field *f, const struct pes_case *c, size_t variant) { (void)c, (void)variant, lines(f, 0xC0, 0xE9); }

/* ---- Defects ---- */

/* One byte of the plain one other; with each variant one more. */
static void change(struct field *f, const struct pes_case *c, size_t variant)
{
    plain(f, c, variant);
    f->data[c->at] = (uint8_t)(c->byte + variant);
}

/* The same with stuffing in the place of B. */
static void change_stuffing(struct field *f, const struct pes_case *c, size_t variant)
{
    *f = around(stuffing(0xFF));
    f->data[c->at] = (uint8_t)(c->byte + variant);
}

/* The byte at `at` takes each value that `is_kept` does not have. */
static void others(struct field *f, const struct pes_case *c, size_t variant, bool (*is_kept)(unsigned))
{
    unsigned value = 0;
    for (size_t left = variant; is_kept(value) || left > 0; value++)
        left -= !is_kept(value);
    plain(f, c, variant);
    f->data[c->at] = (uint8_t)value;
}

/* Identifiers of EN 300 472, and those of EN 301 775, which have a row of their own. */
static bool known_identifier(unsigned value) { return (value >= 0x10 && value <= 0x1F) || (value >= 0x99 && value <= 0x9B); }
static bool known_id(unsigned value)
{
    return value == 2 || value == 3 || value == 0xFF || (value >= 0xB4 && value <= 0xB6) || (value >= 0xC3 && value <= 0xC6);
}
static bool framing_code(unsigned value) { return value == 0xE4; }

static void other_identifier(struct field *f, const struct pes_case *c, size_t variant) { others(f, c, variant, known_identifier); }
static void other_id(struct field *f, const struct pes_case *c, size_t variant) { others(f, c, variant, known_id); }
static void other_framing(struct field *f, const struct pes_case *c, size_t variant) { others(f, c, variant, framing_code); }

static void empty(struct field *f, const struct pes_case *c, size_t variant)
{
    (void)c;
    (void)variant;
    f->len = 0;
}

/* A, two stuffing units, and `at` bytes of a unit; one more with each variant. libzvbi does not look at less than three units. */
static void cut(struct field *f, captions_data_unit last, size_t left)
{
    captions_data_unit s = stuffing(0xFF);
    *f = write_field(0x10, 4, (captions_data_unit[]){ line_a(), s, s, last });
    f->len = CUT + left;
}
static void cut_line(struct field *f, const struct pes_case *c, size_t variant) { cut(f, line_b(), c->at + variant); }
static void cut_stuffing(struct field *f, const struct pes_case *c, size_t variant) { cut(f, stuffing(0xFF), c->at + variant); }

/* 31 units, and `at` bytes more: of line 335, then of stuffing. */
static void surplus(struct field *f, const struct pes_case *c, size_t variant)
{
    captions_data_unit s = stuffing(0xFF);
    struct field more = write_field(0x10, 4, (captions_data_unit[]){ line('L', 3, 0, 22), s, s, s });
    full(f, c, variant);
    memcpy(f->data + f->len, more.data + 1, c->at);
    f->len += c->at;
}

const struct pes_case pes_cases[] = {
    { 0, 0, "A, B, C and four stuffing units (368 bytes)", plain, 0, 0, 0 },
    { 0, 0, "data_identifier 11 to 1F", change, 15, 0, 0x11 },
    { 0, 0, "no unit, one, two (46, 92, 138 bytes)", first_units, 3, 0, 0 },
    { 0, 0, "three units (184 bytes)", first_units, 0, 3, 0 },
    { 0, 0, "four, five, six units (230, 276, 322 bytes)", first_units, 3, 4, 0 },
    { 0, 0, "31 units, each with a line (1,472 bytes)", full, 0, 0, 0 },
    { 0, 0, "B on line 0", change, 0, B + 2, 0xE0 },
    { 0, 0, "stuffing in the place of B, its bytes like those of B", like_a_line, 0, 0, 0 },
    { 0, 0, "B on 21, C on 9", line_falls, 0, 0, 0 },
    { 0, 0, "B on 9, C on 9", line_twice, 0, 0, 0 },
    { 0, 0, "B on 320, C on 9", field_falls, 0, 0, 0 },
    { 0, 0, "B on 0 of the second field, C on 0 of the first", undefined_falls, 0, 0, 0 },
    { 0, 0, "B on 0 of the second field, C on 9", undefined_then_9, 0, 0, 0 },
    { 5, 0, "no byte (45 bytes)", empty, 0, 0, 0 },
    { 5, CUT + 1, "last line: data_unit_id, then the end", cut_line, 0, 1, 0 },
    { 5, CUT + 2, "last line: data_unit_length, then the end", cut_line, 0, 2, 0 },
    { 5, CUT + 3, "last line: field and line, then the end", cut_line, 0, 3, 0 },
    { 5, CUT + 4, "last line: framing code and 0 to 41 bytes of the row", cut_line, 42, 4, 0 },
    { 5, CUT + 1, "last stuffing: data_unit_id, then the end", cut_stuffing, 0, 1, 0 },
    { 5, CUT + 2, "last stuffing: data_unit_length and 0 to 43 bytes", cut_stuffing, 44, 2, 0 },
    { 6, 0, "data_identifier 00 to 0F, 20 to 98, 9C to FF", other_identifier, 237, 0, 0 },
    { 6, 0, "data_identifier 99, 9A, 9B", change, 3, 0, 0x99 },
    { 6, B + 2, "B: reserved bits 00 (byte 29)", change, 0, B + 2, 0x29 },
    { 6, B + 2, "B: reserved bits 01 (byte 69)", change, 0, B + 2, 0x69 },
    { 6, B + 2, "B: reserved bits 10 (byte A9)", change, 0, B + 2, 0xA9 },
    { 6, B + 3, "B: each framing code other than E4", other_framing, 255, B + 3, 0 },
    { 7, B + 2, "B: line 1 to 6 of the first field", change, 6, B + 2, 0xE1 },
    { 7, B + 2, "B: line 1 to 6 of the second field", change, 6, B + 2, 0xC1 },
    { 7, B + 2, "B: line 23 to 31 of the first field", change, 9, B + 2, 0xF7 },
    { 7, B + 2, "B: line 23 to 31 of the second field", change, 9, B + 2, 0xD7 },
    { 13, B + 1, "B: length 00 to 2B", change, 44, B + 1, 0x00 },
    { 13, B + 1, "B: length 2D", change, 0, B + 1, 0x2D },
    { 13, B + 1, "B: length 5A, up to the end of C", change, 0, B + 1, 0x5A },
    { 13, B + 1, "B: length FF", change, 0, B + 1, 0xFF },
    { 13, B + 1, "stuffing for B: length 00", change_stuffing, 0, B + 1, 0x00 },
    { 13, B + 1, "stuffing for B: length 2B", change_stuffing, 0, B + 1, 0x2B },
    { 13, B + 1, "stuffing for B: length 2D", change_stuffing, 0, B + 1, 0x2D },
    { 13, B + 1, "stuffing for B: length 5A, up to the end of C", change_stuffing, 0, B + 1, 0x5A },
    { 13, B + 1, "stuffing for B: length FF", change_stuffing, 0, B + 1, 0xFF },
    { 23, B, "B: id 00, 01, 04 to B3, B7 to C2, C7 to FE", other_id, 246, B, 0 },
    { 23, B, "B: id B4", change, 0, B, 0xB4 },
    { 23, B, "B: id B5", change, 0, B, 0xB5 },
    { 23, B, "B: id B6", change, 0, B, 0xB6 },
    { 23, B, "B: id C3, C4, C5", change, 3, B, 0xC3 },
    { 23, B, "B: id C6", change, 0, B, 0xC6 },
    { 24, A + 31 * UNIT_BYTES, "31 units and a byte (1,473 bytes)", surplus, 0, 1, 0 },
    { 24, A + 31 * UNIT_BYTES, "32 units, each with a line (1,518 bytes)", surplus, 0, UNIT_BYTES, 0 },
    { 24, A + 31 * UNIT_BYTES, "35 units, 32 of them with a line (1,656 bytes)", surplus, 0, 4 * UNIT_BYTES, 0 },
};
const size_t pes_case_count = sizeof pes_cases / sizeof pes_cases[0];
