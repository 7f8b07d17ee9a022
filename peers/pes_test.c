/*
 * pes_test FIELDS: the peer's side of the PES data field, reading. Puts the data fields that make_pes printed into PES packets for
 * libzvbi's DVB demultiplexer, and compares the lines that it hands on; then shows what it does with special ones.
 */
#include "lines.h"
#include "pes.h"

#include <stdlib.h>
#include <string.h>

#include <libzvbi.h>

enum { MAX_LINES = 80, SHOWN = 6, NOTE_BYTES = 120, NOTE_WORDS = 8, END_ROW = 'Z' };

static void fail(const char *what)
{
    fprintf(stderr, "pes_test: %s\n", what);
    exit(2);
}

/* ---- Asking the peer ---- */

/* What the peer made of a data field. Ids and fields are not handed on: they are those that its log tells. */
struct answer {
    size_t n, ids, fields;
    vbi_sliced lines[MAX_LINES];
    unsigned id[MAX_LINES], field[MAX_LINES];
    bool next;             /* whether the packet behind it came out */
    char note[NOTE_BYTES]; /* the first message that is no mere trace, its first words */
};

static void keep_note(struct answer *a, const char *message)
{
    size_t words = 0, len = 0;
    for (; message[len] && len < NOTE_BYTES - 4; len++)
        if (message[len] == ' ' && ++words == NOTE_WORDS)
            break;
    snprintf(a->note, sizeof a->note, "%.*s%s", (int)len, message, message[len] ? " .." : "");
}

static void take_message(vbi_log_mask level, const char *context, const char *message, void *user)
{
    struct answer *a = user;
    unsigned id, field;
    (void)context;
    if (strcmp(message, "New frame.") == 0)
        a->ids = a->fields = 0; /* it begins the packet anew */
    if (sscanf(message, "data_unit_id=0x%x data_unit_length", &id) == 1 && id != 0xFF && a->ids < MAX_LINES)
        a->id[a->ids++] = id;
    if (sscanf(message, "Line %u/", &field) == 1 && a->fields < MAX_LINES)
        a->field[a->fields++] = field;
    if ((level <= VBI_LOG_NOTICE || strstr(message, "(bad)")) && !a->note[0])
        keep_note(a, message);
}

static vbi_bool take_lines(vbi_dvb_demux *dx, void *user, const vbi_sliced *lines, unsigned n, int64_t pts)
{
    struct answer *a = user;
    (void)dx;
    (void)pts;
    for (unsigned i = 0; i < n; i++) {
        if (lines[i].data[0] == END_ROW && lines[i].data[ROW_BYTES - 1] == END_ROW && lines[i].line == 7)
            a->next = true;
        else if (a->n < MAX_LINES)
            a->lines[a->n++] = lines[i];
    }
    return TRUE;
}

static void feed(vbi_dvb_demux *dx, const uint8_t *field, size_t len, uint64_t pts)
{
    static uint8_t packet[PES_HEADER + MAX_FIELD];
    if (len > MAX_FIELD)
        fail("a data field that is too long");
    pes_header(packet, len, pts);
    memcpy(packet + PES_HEADER, field, len);
    if (!vbi_dvb_demux_feed(dx, packet, (unsigned)(PES_HEADER + len)))
        fail("the demultiplexer stopped");
}

static uint8_t reversed(uint8_t byte)
{
    uint8_t r = 0;
    for (int i = 0; i < 8; i++)
        r |= (uint8_t)((byte >> i & 1) << (7 - i));
    return r;
}

/* A data field of one line, which ends the frame before it where that has a line. */
static void feed_end(vbi_dvb_demux *dx, uint64_t pts)
{
    uint8_t field[1 + 3 * UNIT_BYTES];
    memset(field, 0xFF, sizeof field);
    memcpy(field, (uint8_t[]){ 0x10, 0x02, 0x2C, 0xE7, 0xE4 }, 5);
    memset(field + 5, reversed(END_ROW), ROW_BYTES);
    field[1 + UNIT_BYTES + 1] = field[1 + 2 * UNIT_BYTES + 1] = 0x2C;
    feed(dx, field, sizeof field, pts);
}

/*
 * Each data field has a demultiplexer of its own, since the peer puts lines that rise from packet to packet into one frame. A frame
 * is handed on when another one begins. Where all lines are undefined, only the second end is one.
 */
static const struct answer *ask(const struct bytes *field)
{
    static struct answer a;
    memset(&a, 0, sizeof a);
    vbi_dvb_demux *dx = vbi_dvb_pes_demux_new(take_lines, &a);
    if (!dx)
        fail("no demultiplexer");
    vbi_dvb_demux_set_log_fn(dx, (vbi_log_mask)-1, take_message, &a);
    feed(dx, field->data, field->len, 3600);
    vbi_dvb_demux_set_log_fn(dx, 0, NULL, NULL);
    feed_end(dx, 7200);
    feed_end(dx, 10800);
    vbi_dvb_demux_delete(dx);
    return &a;
}

/* ---- Legal data fields ---- */

struct unit {
    unsigned id, parity, line;
    uint8_t row[ROW_BYTES];
};

struct tally {
    size_t fields, whole, cut, units, handed, line, field, id, row, service;
};

static struct tally rising, mixed, converted;

/* Where a line of that kind is counted; null for another line. */
static struct tally *tally_of(const char *line, const char **text)
{
    if (begins(line, "rising", text))
        return &rising;
    if (begins(line, "mixed", text))
        return &mixed;
    return begins(line, "converted", text) ? &converted : NULL;
}

static bool met_unit[4][2][32], met_identifier[256];

static void take_units(FILE *file, size_t n, struct unit *units)
{
    if (n > MAX_UNITS)
        fail("too many units");
    for (size_t i = 0; i < n; i++) {
        const char *line = next_line(file), *text;
        if (!line || !begins(line, "unit", &text))
            fail("a unit is missing");
        units[i].id = (unsigned)take_number(&text) & 3;
        units[i].parity = (unsigned)take_number(&text) & 1;
        units[i].line = (unsigned)take_number(&text) & 31;
        struct bytes b = take_bytes(&text);
        if (b.len != ROW_BYTES)
            fail("a row of another length");
        memcpy(units[i].row, b.data, ROW_BYTES);
        free(b.data);
    }
}

static void compare_unit(struct tally *t, const struct unit *u, const struct answer *a, size_t i)
{
    const vbi_sliced *s = &a->lines[i];
    t->line += s->line == (u->line == 0 ? 0 : u->parity ? u->line : u->line + SECOND_FIELD);
    t->field += i < a->fields && a->field[i] == !u->parity;
    t->id += i < a->ids && a->id[i] == u->id;
    t->row += memcmp(s->data, u->row, ROW_BYTES) == 0;
    t->service += s->id == VBI_SLICED_TELETEXT_B;
    met_unit[u->id][u->parity][u->line] = true;
}

/* The lines that came out are compared with the first units. If some did not, the log must call a line out of order. */
static void compare(struct tally *t, const char *text, FILE *file)
{
    struct unit units[MAX_UNITS];
    size_t n = (size_t)take_number(&text);
    struct bytes field = take_bytes(&text);
    const struct answer *a = ask(&field);
    met_identifier[field.data[0]] = true;
    free(field.data);
    take_units(file, n, units);
    t->fields++;
    t->units += n;
    t->handed += a->n;
    t->whole += a->n == n && !a->note[0];
    t->cut += a->n < n && strncmp(a->note, "Illegal line order", 18) == 0;
    for (size_t i = 0; i < a->n && i < n; i++)
        compare_unit(t, &units[i], a, i);
}

static bool print_tally(const char *name, const struct tally *t)
{
    printf("%s: data fields %zu, handed on whole %zu, up to a line out of order %zu; teletext units %zu, handed on %zu, of these equal: "
           "line %zu, field (log) %zu, id (log) %zu, bytes %zu, service %zu\n",
           name, t->fields, t->whole, t->cut, t->units, t->handed, t->line, t->field, t->id, t->row, t->service);
    return t->line == t->handed && t->field == t->handed && t->id == t->handed && t->row == t->handed && t->service == t->handed &&
           t->fields > 0 && t->whole + t->cut == t->fields;
}

static size_t count(const bool *flags, size_t n)
{
    size_t set = 0;
    for (size_t i = 0; i < n; i++)
        set += flags[i];
    return set;
}

/* The sums of the legal data fields. Those whose lines rise must come out whole. */
static bool print_equal(void)
{
    bool equal = print_tally("lines that rise", &rising);
    equal = print_tally("lines in any order", &mixed) && equal;
    equal = print_tally("converted from subtitling packets, lines that rise", &converted) && equal;
    equal = equal && rising.cut == 0 && converted.cut == 0;
    size_t units = count(&met_unit[0][0][0], sizeof met_unit), identifiers = count(met_identifier, sizeof met_identifier);
    printf("met: identifiers %zu, combinations of id, field and line %zu\n", identifiers, units);
    size_t checked = rising.units + converted.units, same = rising.handed + converted.handed;
    printf("SUMMARY PES data field, read by libzvbi: data fields %zu, teletext units checked %zu, handed on %zu; all equal: %s\n",
           rising.fields + converted.fields, checked, same, equal && checked == same ? "yes" : "NO");
    printf("SUMMARY PES data field, read by libzvbi, any order: data fields %zu, handed on whole %zu, up to a line out of order %zu\n",
           mixed.fields, mixed.whole, mixed.cut);
    return equal && checked == same && units == 2 * 2 * 17 && identifiers == 16;
}

/* ---- Special data fields ---- */

static size_t rows, variants, as_expected;

/* What a row shows of an answer: the lines, and the message. */
struct shown {
    char lines[200], note[NOTE_BYTES];
};

static void show_line(char *out, size_t room, const vbi_sliced *s)
{
    if (s->id == VBI_SLICED_TELETEXT_B && s->data[0] >= 'A' && s->data[0] <= 'Z' && s->data[0] == s->data[ROW_BYTES - 1])
        snprintf(out, room, "%c on %u", s->data[0], s->line);
    else if (vbi_sliced_name(s->id))
        snprintf(out, room, "%s on %u", vbi_sliced_name(s->id), s->line);
    else
        snprintf(out, room, "service %X on %u", s->id, s->line);
}

static struct shown show(const struct answer *a)
{
    struct shown s;
    size_t len = 0;
    snprintf(s.lines, sizeof s.lines, a->n == 0 ? "none" : a->n > SHOWN ? "%zu lines" : "", a->n);
    for (size_t i = 0; i < a->n && a->n <= SHOWN; i++) {
        len += (size_t)snprintf(s.lines + len, sizeof s.lines - len, "%s", i ? ", " : "");
        show_line(s.lines + len, sizeof s.lines - len, &a->lines[i]);
        len = strlen(s.lines);
    }
    if (!a->next)
        strncat(s.lines, "; the next packet is lost", sizeof s.lines - strlen(s.lines) - 1);
    memcpy(s.note, a->note, sizeof s.note);
    return s;
}

/* Whether two messages are the same but for their numbers. */
static bool same_note(const char *a, const char *b)
{
    static const char digits[] = "0123456789";
    for (;; a++, b++) {
        a += strspn(a, digits);
        b += strspn(b, digits);
        if (*a != *b || !*a)
            return *a == *b;
    }
}

static void print_row(int number, int place, const char *what, size_t n, int ours, int at, const struct shown *shown)
{
    printf("%2d  %s", number, what);
    if (n > 1)
        printf(" (%zu fields)", n);
    if (number)
        printf(", at %d", place);
    printf(" | ours: ");
    if (ours)
        printf("refused %d at %d", ours, at);
    else
        printf("accepted");
    printf(" | libzvbi: %s%s%s\n", shown->lines, shown->note[0] ? "; log: " : "", shown->note);
    rows++;
}

/* The variants of a case, in one row as long as they bring the same answer; the message is that of the first. */
static const char *observe(const char *text, FILE *file)
{
    char what[200];
    struct shown first = { 0 };
    int number = take_number(&text), place = take_number(&text), ours = 0, at = 0;
    size_t n = 0;
    const char *line;
    snprintf(what, sizeof what, "%s", text);
    while ((line = next_line(file)) && begins(line, "variant", &text)) {
        int its_ours = take_number(&text), its_at = take_number(&text);
        struct bytes field = take_bytes(&text);
        struct shown s = show(ask(&field));
        free(field.data);
        if (n > 0 && (its_ours != ours || its_at != at || strcmp(s.lines, first.lines) != 0 || !same_note(s.note, first.note))) {
            print_row(number, place, what, n, ours, at, &first);
            n = 0;
        }
        if (n++ == 0)
            ours = its_ours, at = its_at, first = s;
        variants++;
        as_expected += its_ours == number && its_at == place;
    }
    if (n > 0)
        print_row(number, place, what, n, ours, at, &first);
    return line;
}

int main(int argc, char **argv)
{
    unsigned major, minor, micro;
    FILE *file = argc == 2 ? fopen(argv[1], "r") : NULL;
    if (!file)
        fail("no file of data fields");
    vbi_version(&major, &minor, &micro);
    printf("== PES data field, read by libzvbi %u.%u.%u\n", major, minor, micro);
    bool equal = false;
    for (const char *line = next_line(file), *text; line;) {
        struct tally *t = tally_of(line, &text);
        if (t) {
            compare(t, text, file);
            line = next_line(file);
        } else if (begins(line, "case", &text)) {
            if (rows == 0)
                equal = print_equal();
            line = observe(text, file);
        } else {
            fail("a line that cannot be read");
        }
    }
    printf("SUMMARY PES data field, read by libzvbi: data fields observed %zu in %zu rows, our number and place as RULES has them %zu\n",
           variants, rows, as_expected);
    return !equal || variants == 0 || as_expected != variants;
}
