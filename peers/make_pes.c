/*
 * make_pes: the library's side of the PES data field, writing. Prints the data fields that pes_test gives to libzvbi:
 *
 *   rising N FIELD            a data field that the library wrote: lines rise, and those of the first field stand first
 *   mixed N FIELD             the same with lines in any order
 *   converted N FIELD         one out of a subtitling packet, filled up with stuffing; lines rise
 *   unit ID PARITY LINE ROW   behind each of these, the N teletext units that it was written from
 *   case NUMBER PLACE WHAT    special data fields: the number and the place of RULES
 *   variant OURS AT FIELD     one or more behind it: the number and the place of the library
 */
#include "lines.h"
#include "pes_cases.h"

#include <stdlib.h>
#include <string.h>

enum { RISING = 4000, MIXED = 1000, CONVERTED = 1000 };

static void fail(const char *what)
{
    fprintf(stderr, "make_pes: %s\n", what);
    exit(2);
}

struct field write_field(uint32_t data_identifier, size_t n, const captions_data_unit *units)
{
    static captions_data_unit all[CAPTIONS_PES_UNITS];
    struct field f = { 0 };
    memcpy(all, units, n * sizeof *units);
    captions_written w = captions_pes_write(data_identifier, n, all, f.data, sizeof f.data);
    if (w.refusal.number)
        fail("the library refused a legal value");
    f.len = w.len;
    return f;
}

captions_data_unit stuffing(uint8_t byte)
{
    captions_data_unit u = { .data_unit_id = 0xFF };
    memset(u.of.stuffing, byte, sizeof u.of.stuffing);
    return u;
}

static void print_unit(const captions_data_unit *u)
{
    if (u->data_unit_id == 0xFF)
        return;
    printf("unit %d %d %d ", u->data_unit_id, u->of.teletext.field_parity, u->of.teletext.line_offset);
    print_bytes(u->of.teletext.row, ROW_BYTES);
    printf("\n");
}

static void print_field(const char *kind, const struct field *f, size_t n, const captions_data_unit *units)
{
    size_t teletext = 0;
    for (size_t i = 0; i < n; i++)
        teletext += units[i].data_unit_id != 0xFF;
    printf("%s %zu ", kind, teletext);
    print_bytes(f->data, f->len);
    printf("\n");
    for (size_t i = 0; i < n; i++)
        print_unit(&units[i]);
}

/* ---- Random data fields ---- */

/* How many units make a whole number of 184 bytes with the PES header and the identifier. */
static size_t random_count(void) { return 3 + 4 * random_below(8); }

static captions_data_unit random_stuffing(void)
{
    captions_data_unit u = { .data_unit_id = 0xFF };
    random_bytes(u.of.stuffing, sizeof u.of.stuffing);
    return u;
}

static captions_data_unit random_teletext(uint8_t field_parity, uint8_t line_offset)
{
    captions_data_unit u = { .data_unit_id = (uint8_t)(2 + random_below(2)) };
    u.of.teletext.field_parity = field_parity;
    u.of.teletext.line_offset = line_offset;
    random_bytes(u.of.teletext.row, ROW_BYTES);
    return u;
}

static void rising_field(void)
{
    captions_data_unit units[MAX_UNITS];
    size_t n = random_count(), second = random_below((uint32_t)n + 1);
    uint8_t next[2] = { 7, 7 };
    for (size_t i = 0; i < n; i++)
        units[i] = random_below(6) ? random_teletext(i < second, rising_line(&next[i < second])) : random_stuffing();
    struct field f = write_field(0x10 + random_below(16), n, units);
    print_field("rising", &f, n, units);
}

static void mixed_field(void)
{
    captions_data_unit units[MAX_UNITS];
    size_t n = random_count();
    for (size_t i = 0; i < n; i++) {
        uint8_t line = (uint8_t)(6 + random_below(17));
        units[i] = random_below(6) ? random_teletext((uint8_t)random_below(2), line == 6 ? 0 : line) : random_stuffing();
    }
    struct field f = write_field(0x10 + random_below(16), n, units);
    print_field("mixed", &f, n, units);
}

/* ---- Data fields out of subtitling packets ---- */

struct packet {
    uint32_t counter;
    captions_slot slots[CAPTIONS_SLOTS];
    captions_row rows[CAPTIONS_SLOTS];
};

/* Packet k has a full slot where bit i of k is set. */
static struct packet random_packet(unsigned k)
{
    struct packet p = { .counter = random_below(65536) };
    size_t second = random_below(CAPTIONS_SLOTS + 1);
    uint8_t next[2] = { 7, 7 };
    for (size_t i = 0; i < CAPTIONS_SLOTS; i++) {
        if (!(k >> i & 1))
            continue;
        captions_slot *s = &p.slots[i];
        s->full = 1;
        s->line = rising_line(&next[i < second]);
        s->reserved = (uint8_t)random_below(4);
        s->field = i < second;
        if (s->line == 0 && s->field == 0)
            s->reserved |= 1; /* a descriptor of 0 is an empty slot */
        random_bytes(p.rows[i].bytes, ROW_BYTES);
    }
    return p;
}

/* What the packet's full slots should become. */
static size_t expected_units(const struct packet *p, captions_data_unit *units)
{
    size_t n = 0;
    for (size_t i = 0; i < CAPTIONS_SLOTS; i++) {
        if (!p->slots[i].full)
            continue;
        captions_data_unit *u = &units[n++];
        *u = (captions_data_unit){ .data_unit_id = 3 };
        u->of.teletext.field_parity = p->slots[i].field;
        u->of.teletext.line_offset = p->slots[i].line;
        memcpy(u->of.teletext.row, p->rows[i].bytes, ROW_BYTES);
    }
    return n;
}

/* Converts the packet from its words and from its value, which must give the same. */
static struct field convert(const struct packet *p)
{
    uint16_t words[CAPTIONS_PACKET_WORDS];
    struct field f = { 0 }, g = { 0 };
    captions_written w = captions_packet_write(p->counter, p->slots, p->rows, words, CAPTIONS_PACKET_WORDS);
    captions_written x = captions_pes_convert(words, w.len, f.data, sizeof f.data);
    captions_written y = captions_pes_convert_value(p->counter, p->slots, p->rows, g.data, sizeof g.data);
    f.len = x.len;
    g.len = y.len;
    if (w.refusal.number || x.refusal.number || y.refusal.number)
        fail("the library refused a legal packet");
    if (f.len != g.len || memcmp(f.data, g.data, f.len) != 0)
        fail("words and value are converted into different data fields");
    return f;
}

/* As a sender does it: convert, read, add stuffing up to a multiple of 184 bytes, write. */
static void converted_field(unsigned k)
{
    captions_data_unit expected[CAPTIONS_SLOTS], units[CAPTIONS_PES_UNITS];
    struct packet p = random_packet(k);
    struct field f = convert(&p);
    captions_pes read = captions_pes_read(f.data, f.len, units);
    size_t n = read.n;
    if (read.refusal.number || n + 4 > MAX_UNITS)
        fail("a converted data field is refused");
    while (n % 4 != 3)
        units[n++] = stuffing(0xFF);
    struct field g = write_field(read.data_identifier, n, units);
    if (g.len < f.len || memcmp(f.data, g.data, f.len) != 0)
        fail("a converted data field is written in another way");
    size_t full = expected_units(&p, expected);
    print_field("converted", &g, full, expected);
}

/* ---- All ---- */

static void print_case(const struct pes_case *c)
{
    captions_data_unit units[CAPTIONS_PES_UNITS];
    printf("case %d %zu %s\n", c->number, c->place, c->what);
    for (size_t i = 0; i < (c->variants ? c->variants : 1); i++) {
        struct field f = { 0 };
        c->make(&f, c, i);
        captions_refusal ours = captions_pes_read(f.data, f.len, units).refusal;
        printf("variant %d %zu ", ours.number, (size_t)ours.place);
        print_bytes(f.data, f.len);
        printf("\n");
    }
}

int main(void)
{
    for (size_t i = 0; i < RISING; i++)
        rising_field();
    for (size_t i = 0; i < MIXED; i++)
        mixed_field();
    for (unsigned k = 0; k < CONVERTED; k++)
        converted_field(k);
    for (size_t i = 0; i < pes_case_count; i++)
        print_case(&pes_cases[i]);
    return fflush(stdout) != 0;
}
