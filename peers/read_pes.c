/*
 * read_pes FIELDS: the library's side of the PES data field, reading. Reads the data fields that mux_pes printed and compares lines,
 * fields and bytes; then shows which of the special ones the library refuses.
 */
#include "captions.h"
#include "lines.h"
#include "pes.h"

#include <stdlib.h>
#include <string.h>

static void fail(const char *what)
{
    fprintf(stderr, "read_pes: %s\n", what);
    exit(2);
}

static captions_data_unit units[CAPTIONS_PES_UNITS];
static struct {
    size_t fields, refused, other_identifier, other_count, units, lines, line, field, row, id_02, stuffing, stuffing_ff;
} tally;

/* Takes stuffing out of the units, and says how many are left. */
static size_t teletext_units(size_t n)
{
    size_t kept = 0;
    for (size_t i = 0; i < n; i++) {
        if (units[i].data_unit_id != 0xFF) {
            units[kept++] = units[i];
            continue;
        }
        size_t ff = 0;
        for (size_t j = 0; j < sizeof units[i].of.stuffing; j++)
            ff += units[i].of.stuffing[j] == 0xFF;
        tally.stuffing++;
        tally.stuffing_ff += ff == sizeof units[i].of.stuffing;
    }
    return kept;
}

static void compare_line(const char *text, const captions_data_unit *u)
{
    const captions_teletext *t = &u->of.teletext;
    int first = take_number(&text), line = take_number(&text);
    struct bytes row = take_bytes(&text);
    tally.line += line == (t->line_offset == 0 ? 0 : t->line_offset + (t->field_parity ? 0 : SECOND_FIELD));
    tally.field += first == t->field_parity;
    tally.row += row.len == ROW_BYTES && memcmp(row.data, t->row, ROW_BYTES) == 0;
    tally.id_02 += u->data_unit_id == 2;
    free(row.data);
}

static void compare(const char *text, FILE *file)
{
    size_t n = (size_t)take_number(&text);
    int identifier = take_number(&text);
    struct bytes field = take_bytes(&text);
    memset(units, 0, sizeof units);
    captions_pes p = captions_pes_read(field.data, field.len, units);
    free(field.data);
    size_t got = teletext_units(p.n);
    tally.fields++;
    tally.refused += p.refusal.number != 0;
    tally.other_identifier += p.data_identifier != identifier;
    tally.other_count += got != n;
    tally.lines += n;
    tally.units += got;
    for (size_t i = 0; i < n; i++) {
        const char *line = next_line(file), *rest;
        if (i >= CAPTIONS_PES_UNITS || !line || !begins(line, "line", &rest))
            fail("a line is missing, or there are too many");
        compare_line(rest, &units[i]);
    }
}

static bool print_tally(void)
{
    printf("data fields %zu, refused %zu, with another identifier %zu, with another count %zu\n", tally.fields, tally.refused,
           tally.other_identifier, tally.other_count);
    printf("lines %zu, equal: line %zu, field %zu, bytes %zu\n", tally.lines, tally.line, tally.field, tally.row);
    printf("of %zu teletext units id 02 in %zu; of %zu stuffing units all bytes FF in %zu\n", tally.units, tally.id_02, tally.stuffing,
           tally.stuffing_ff);
    size_t equal = tally.line < tally.field ? tally.line : tally.field;
    equal = tally.row < equal ? tally.row : equal;
    printf("SUMMARY PES data field, written by libzvbi: data fields %zu, lines checked %zu, equal %zu, differences %zu\n", tally.fields,
           tally.lines, equal, tally.lines - equal + tally.refused + tally.other_identifier + tally.other_count);
    return equal == tally.lines && tally.lines > 0 && !tally.refused && !tally.other_identifier && !tally.other_count;
}

/* Whether number and place are those of RULES. */
static bool observe(const char *text)
{
    int number = take_number(&text), place = take_number(&text);
    struct bytes field = take_bytes(&text);
    captions_refusal ours = captions_pes_read(field.data, field.len, units).refusal;
    printf("%2d  %s | ours: refused %d | place: %zu\n", number, text, ours.number, (size_t)ours.place);
    free(field.data);
    return ours.number == number && ours.place == (size_t)place;
}

int main(int argc, char **argv)
{
    size_t cases = 0, as_expected = 0;
    bool equal = false;
    FILE *file = argc == 2 ? fopen(argv[1], "r") : NULL;
    if (!file)
        fail("no file of data fields");
    for (const char *line, *text; (line = next_line(file));) {
        if (begins(line, "peer", &text)) {
            printf("== PES data field, written by %s\n", text);
        } else if (begins(line, "field", &text)) {
            compare(text, file);
        } else if (begins(line, "headers", &text)) {
            int same = take_number(&text), all = take_number(&text);
            equal = print_tally() && same == all;
            printf("PES headers equal to ours: %d of %d\n", same, all);
        } else if (begins(line, "note", &text)) {
            printf("%s\n", text);
        } else if (begins(line, "case", &text)) {
            cases++;
            as_expected += observe(text);
        } else {
            fail("a line that cannot be read");
        }
    }
    printf("SUMMARY PES data field, written by libzvbi: data fields observed %zu, our number and place as RULES has them %zu\n", cases,
           as_expected);
    return !equal || cases == 0 || as_expected != cases;
}
