/*
 * mux_pes: the peer's side of the PES data field, writing. Prints what libzvbi's DVB multiplexer writes, for read_pes:
 *
 *   peer VERSION
 *   field N IDENTIFIER FIELD        a data field
 *   line PARITY LINE ROW            behind it, the N lines that it was written from: field and line of the frame
 *   headers EQUAL OF                how many of its PES headers have the bytes of those that pes_test makes
 *   note TEXT                       what it writes and what not
 *   case NUMBER PLACE FIELD WHAT    a data field that we refuse: the number and the place of RULES
 */
#include "lines.h"
#include "pes.h"

#include <stdlib.h>
#include <string.h>

#include <libzvbi.h>

enum { FIELDS = 3000, PES_UNIT = 184, MAX_PACKET = 1472, ANY_SIZE = 65504, PTS = 0x123456789 };

static void fail(const char *what)
{
    fprintf(stderr, "mux_pes: %s\n", what);
    exit(2);
}

/* ---- Asking the peer ---- */

static struct field got;
static size_t headers, headers_equal;

static vbi_bool take_packet(vbi_dvb_mux *mx, void *user, const uint8_t *packet, unsigned size)
{
    uint8_t header[PES_HEADER];
    (void)mx;
    (void)user;
    if (got.len || size <= PES_HEADER || size > PES_HEADER + MAX_FIELD)
        fail("more than one packet, or a size that cannot be");
    got.len = size - PES_HEADER;
    memcpy(got.data, packet + PES_HEADER, got.len);
    pes_header(header, got.len, PTS);
    headers++;
    headers_equal += memcmp(header, packet, PES_HEADER) == 0;
    return TRUE;
}

/* The data field of a PES packet of these lines. Whether it was written. */
static bool writes(unsigned identifier, const vbi_sliced *lines, size_t n, unsigned min_size, unsigned max_size)
{
    vbi_dvb_mux *mx = vbi_dvb_pes_mux_new(take_packet, NULL);
    got.len = 0;
    if (!mx || !vbi_dvb_mux_set_pes_packet_size(mx, min_size, max_size))
        fail("no multiplexer, or not with these sizes");
    bool written = vbi_dvb_mux_set_data_identifier(mx, identifier) &&
                   vbi_dvb_mux_feed(mx, lines, (unsigned)n, (vbi_service_set)-1, NULL, NULL, PTS) && got.len > 0;
    vbi_dvb_mux_delete(mx);
    return written;
}

static void mux(unsigned identifier, const vbi_sliced *lines, size_t n, unsigned min_size, unsigned max_size)
{
    if (!writes(identifier, lines, n, min_size, max_size))
        fail("the multiplexer wrote nothing");
}

/* The same without a PES packet: units in a room of that many bytes, and the identifier put before them. */
static void mux_units(unsigned identifier, const vbi_sliced *lines, size_t n, size_t room)
{
    uint8_t *to = got.data + 1;
    unsigned left = (unsigned)room, lines_left = (unsigned)n;
    got.data[0] = (uint8_t)identifier;
    if (!vbi_dvb_multiplex_sliced(&to, &left, &lines, &lines_left, (vbi_service_set)-1, identifier, TRUE) || lines_left || left)
        fail("not all lines were written, or the room was not filled");
    got.len = 1 + room;
}

/* ---- Random lines ---- */

static vbi_sliced sliced(vbi_service_set service, unsigned line)
{
    vbi_sliced s = { .id = service, .line = line };
    random_bytes(s.data, sizeof s.data);
    return s;
}

/* Lines that rise; the multiplexer takes no others. */
static size_t random_lines(vbi_sliced *lines, bool *first)
{
    static const vbi_service_set services[] = { VBI_SLICED_TELETEXT_B, VBI_SLICED_TELETEXT_B_L10_625, VBI_SLICED_TELETEXT_B_L25_625 };
    size_t n = random_below(MAX_UNITS + 1), second = random_below((uint32_t)n + 1);
    uint8_t next[2] = { 7, 7 };
    for (size_t i = 0; i < n; i++) {
        uint8_t line = rising_line(&next[i < second]);
        /* A line 0 has no field here. The one before it tells, or else it is the first. */
        first[i] = line ? i < second : i == 0 || first[i - 1];
        lines[i] = sliced(services[random_below(3)], line ? line + (i < second ? 0u : SECOND_FIELD) : 0);
    }
    return n;
}

static void random_field(size_t k)
{
    vbi_sliced lines[MAX_UNITS];
    bool first[MAX_UNITS];
    size_t n = random_lines(lines, first);
    unsigned identifier = 0x10 + random_below(16);
    if (k % 4 == 0 && n > 0)
        mux_units(identifier, lines, n, UNIT_BYTES * (n + random_below((uint32_t)(MAX_UNITS - n + 1))));
    else
        mux(identifier, lines, n, PES_UNIT * (1 + random_below(8)), MAX_PACKET);
    printf("field %zu %u ", n, identifier);
    print_bytes(got.data, got.len);
    printf("\n");
    for (size_t i = 0; i < n; i++) {
        printf("line %d %u ", first[i], lines[i].line);
        print_bytes(lines[i].data, ROW_BYTES);
        printf("\n");
    }
}

/* ---- What it does not write ---- */

/* Line numbers of the frame that stand for a line_offset of 0 to 31 in either field. */
static void note_lines(void)
{
    size_t taken = 0, ours = 0;
    for (unsigned line = 0; line < 2 * 32; line++) {
        unsigned offset = line % 32;
        vbi_sliced s = sliced(VBI_SLICED_TELETEXT_B, line < 32 ? line : offset + SECOND_FIELD);
        bool written = writes(0x10, &s, 1, PES_UNIT, MAX_PACKET);
        taken += written;
        ours += written == (line == 0 || (offset >= 7 && offset <= 22));
    }
    printf("note line numbers 0 to 31 and 313 to 344: written %zu of 64, as we would %zu of 64\n", taken, ours);
}

static void note_order(void)
{
    static const unsigned pairs[][2] = { { 9, 8 }, { 9, 9 }, { 320, 9 } };
    size_t written = 0;
    for (size_t i = 0; i < 3; i++) {
        vbi_sliced lines[] = { sliced(VBI_SLICED_TELETEXT_B, pairs[i][0]), sliced(VBI_SLICED_TELETEXT_B, pairs[i][1]) };
        written += writes(0x10, lines, 2, PES_UNIT, MAX_PACKET);
    }
    printf("note lines 9 and 8, 9 and 9, 320 and 9: written %zu of 3\n", written);
}

static void note_identifiers(void)
{
    vbi_sliced s = sliced(VBI_SLICED_TELETEXT_B, 7);
    printf("note identifiers that it writes:");
    for (unsigned identifier = 0; identifier < 256; identifier++)
        if (writes(identifier, &s, 1, PES_UNIT, MAX_PACKET))
            printf(" %02X", identifier);
    printf("\n");
}

/* ---- What we refuse ---- */

static void print_case(int number, int place, const char *what)
{
    printf("case %d %d ", number, place);
    print_bytes(got.data, got.len);
    printf(" %s\n", what);
}

/* Another service behind a line of teletext. */
static void other_service(vbi_service_set service, unsigned line, const char *what)
{
    vbi_sliced lines[] = { sliced(VBI_SLICED_TELETEXT_B, 7), sliced(service, line) };
    mux(0x10, lines, 2, PES_UNIT, MAX_PACKET);
    print_case(23, 1 + UNIT_BYTES, what);
}

static void raw_samples(void)
{
    static uint8_t samples[720];
    const uint8_t *from = samples;
    uint8_t *to = got.data + 1;
    unsigned left = 19 * UNIT_BYTES, samples_left = sizeof samples;
    got.data[0] = 0x10;
    got.len = 1 + left;
    if (!vbi_dvb_multiplex_raw(&to, &left, &from, &samples_left, 0x10, VBI_VIDEOSTD_SET_625_50, 7, 0, sizeof samples, TRUE) || left)
        fail("no raw samples");
    print_case(23, 1, "samples of a line of the picture");
}

/* Identifiers of EN 301 775: what the units are then, also behind an identifier of ours. */
static void other_identifiers(void)
{
    vbi_sliced lines[] = { sliced(VBI_SLICED_TELETEXT_B, 7), sliced(VBI_SLICED_TELETEXT_B, 8) };
    mux(0x99, lines, 2, PES_UNIT, MAX_PACKET);
    print_case(6, 0, "identifier 99, two lines and a stuffing unit");
    mux_units(0x99, lines, 2, 2 * UNIT_BYTES + 1);
    got.data[0] = 0x10;
    print_case(13, 1 + UNIT_BYTES + 1, "units for 99 in a room of one byte more, 10 put before them: length 2D");
    mux(0x99, lines, 2, 2 * PES_UNIT, MAX_PACKET);
    got.data[0] = 0x10;
    print_case(13, 1 + 2 * UNIT_BYTES + 1, "units for 99 in 368 bytes, 10 put before them: stuffing of another length");
}

static void surplus_units(void)
{
    vbi_sliced lines[32];
    for (unsigned i = 0; i < 32; i++)
        lines[i] = sliced(VBI_SLICED_TELETEXT_B, i < 16 ? 7 + i : 7 + i - 16 + SECOND_FIELD);
    mux(0x10, lines, 32, PES_UNIT, ANY_SIZE);
    print_case(24, 1 + MAX_UNITS * UNIT_BYTES, "all 32 lines in one packet: 35 units");
    mux(0x10, lines, 1, 9 * PES_UNIT, ANY_SIZE);
    print_case(24, 1 + MAX_UNITS * UNIT_BYTES, "one line in a packet of 1,656 bytes: 35 units");
}

int main(void)
{
    unsigned major, minor, micro;
    vbi_version(&major, &minor, &micro);
    printf("peer libzvbi %u.%u.%u\n", major, minor, micro);
    for (size_t k = 0; k < FIELDS; k++)
        random_field(k);
    printf("headers %zu %zu\n", headers_equal, headers);
    note_lines();
    note_order();
    note_identifiers();
    other_identifiers();
    other_service(VBI_SLICED_VPS, 16, "VPS on line 16");
    other_service(VBI_SLICED_WSS_625, 23, "WSS on line 23");
    other_service(VBI_SLICED_CAPTION_625, 21, "closed captions on line 21");
    raw_samples();
    surplus_units();
    return fflush(stdout) != 0;
}
