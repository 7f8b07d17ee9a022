/*
 * packet_test PACKETS: the peers' side of the subtitling packet. Holds the packets that make_packets printed to GStreamer's
 * ancillary encoder and parser and biTStream's functions for SMPTE 291 and RDD 8; then shows what these do with special ones.
 */
#include "lines.h"
#include "words.h"

#include <stdlib.h>
#include <string.h>

#include <bitstream/smpte/291.h>
#include <bitstream/smpte/rdd08.h>
#include <gst/gst.h>
#include <gst/video/video.h>

enum { LINE_WORDS = 3840, LINE_BYTES = 5120, SLOTS = 5, ROW_BYTES = 42 };

/* ---- The file of packets ---- */

struct slot {
    int full, line, field;
    uint8_t row[ROW_BYTES];
};

/* What a packet was written from. */
struct value {
    int counter;
    struct slot slots[SLOTS];
};

static void fail(const char *what)
{
    fprintf(stderr, "packet_test: %s\n", what);
    exit(2);
}

static struct words take_words(const char **text)
{
    struct words p = { 0 };
    struct bytes b = take_bytes(text);
    if (b.len % 2 || b.len / 2 > MAX_WORDS)
        fail("half a word, or too many");
    for (; p.len < b.len / 2; p.len++)
        p.w[p.len] = (uint16_t)(b.data[2 * p.len] << 8 | b.data[2 * p.len + 1]);
    free(b.data);
    return p;
}

static void take_slot(struct slot *s, FILE *file)
{
    const char *line = next_line(file), *text;
    if (!line || !begins(line, "slot", &text))
        fail("a slot is missing");
    s->full = take_number(&text);
    s->line = take_number(&text);
    s->field = take_number(&text);
    struct bytes b = take_bytes(&text);
    if (b.len != ROW_BYTES)
        fail("a row of another length");
    memcpy(s->row, b.data, ROW_BYTES);
    free(b.data);
}

/* ---- A video line in the format v210: three 10-bit words in 32 bits ---- */

/* HD keeps a packet in the luma words, SD in all of them; GStreamer takes a line of 1280 and more for HD. */
static size_t word_place(unsigned width, size_t i)
{
    return width >= 1280 ? 2 * i + 1 : i;
}

static void pack(uint8_t line[LINE_BYTES], unsigned width, const struct words *p)
{
    static uint16_t all[LINE_WORDS];
    for (size_t i = 0; i < LINE_WORDS; i++)
        all[i] = i % 2 ? 0x040 : 0x200; /* black */
    for (size_t i = 0; i < p->len; i++)
        all[word_place(width, i)] = p->w[i];
    for (size_t i = 0; i < LINE_WORDS / 3; i++) {
        uint32_t x = (all[3 * i] & 0x3FFu) | (all[3 * i + 1] & 0x3FFu) << 10 | (all[3 * i + 2] & 0x3FFu) << 20;
        for (size_t b = 0; b < 4; b++)
            line[4 * i + b] = (uint8_t)(x >> 8 * b);
    }
}

static uint16_t unpack(const uint8_t line[LINE_BYTES], size_t i)
{
    const uint8_t *d = line + 4 * (i / 3);
    uint32_t x = d[0] | (uint32_t)d[1] << 8 | (uint32_t)d[2] << 16 | (uint32_t)d[3] << 24;
    return x >> 10 * (i % 3) & 0x3FF;
}

/* ---- The peers ---- */

static bool gstreamer_encodes_equal(const struct words *p, unsigned width)
{
    static uint8_t line[LINE_BYTES], bytes[256];
    size_t n = user_bytes(p, bytes);
    GstVideoVBIEncoder *e = gst_video_vbi_encoder_new(GST_VIDEO_FORMAT_v210, width);
    bool equal = gst_video_vbi_encoder_add_ancillary(e, FALSE, 0x43, 0x02, bytes, (guint)n);
    memset(line, 0, sizeof line);
    gst_video_vbi_encoder_write_line(e, line);
    gst_video_vbi_encoder_free(e);
    for (size_t i = 0; i < p->len; i++)
        equal = equal && unpack(line, word_place(width, i)) == p->w[i];
    return equal;
}

static GstVideoVBIParserResult gstreamer_parses(const struct words *p, unsigned width, GstVideoAncillary *anc)
{
    static uint8_t line[LINE_BYTES];
    pack(line, width, p);
    memset(anc, 0, sizeof *anc);
    GstVideoVBIParser *parser = gst_video_vbi_parser_new(GST_VIDEO_FORMAT_v210, width);
    gst_video_vbi_parser_add_line(parser, line);
    GstVideoVBIParserResult r = gst_video_vbi_parser_get_ancillary(parser, anc);
    gst_video_vbi_parser_free(parser);
    return r;
}

static bool gstreamer_parses_equal(const struct words *p, unsigned width)
{
    static GstVideoAncillary anc;
    uint8_t bytes[256];
    size_t n = user_bytes(p, bytes);
    return gstreamer_parses(p, width, &anc) == GST_VIDEO_VBI_PARSER_RESULT_OK && anc.DID == 0x43 && anc.SDID_block_number == 0x02 &&
           anc.data_count == n && memcmp(anc.data, bytes, n) == 0;
}

static bool bitstream_writes_equal(const struct words *p)
{
    uint8_t bytes[256];
    size_t n = user_bytes(p, bytes);
    struct words q = bitstream_packet(S291_OP47SDP_DID, S291_OP47SDP_SDID, bytes, n);
    return q.len == p->len && memcmp(q.w, p->w, p->len * sizeof *p->w) == 0;
}

static bool bitstream_slot_equal(const uint16_t *sdp, const struct value *v, size_t i)
{
    const struct slot *s = &v->slots[i];
    uint8_t a = rdd08sdp_get_a(sdp, (uint8_t)i);
    const uint16_t *b = rdd08sdp_get_b(sdp, (uint8_t)i);
    bool equal = (a != 0) == s->full && rdd08sdpa_get_line(a) == s->line && rdd08sdpa_get_field(a) == s->field;
    if (!s->full)
        return equal;
    equal = equal && b[0] == 0x255 && b[1] == 0x255 && b[2] == RDD08SDP_FRAMING_CODE;
    for (size_t j = 0; j < ROW_BYTES; j++)
        equal = equal && (b[3 + j] & 0xFF) == s->row[j];
    return equal;
}

static bool bitstream_reads_equal(const struct words *p, const struct value *v)
{
    const uint16_t *sdp = s291_get_udw(p->w);
    bool equal = s291_check_cs(p->w) && s291_get_did(p->w) == S291_OP47SDP_DID && s291_get_sdid(p->w) == S291_OP47SDP_SDID &&
                 sdp[0] == RDD08SDP_IDENT1 && sdp[1] == RDD08SDP_IDENT2 && rdd08sdp_get_format(sdp) == RDD08SDP_FORMAT_WST &&
                 rdd08sdp_get_length(sdp) == s291_get_dc(p->w) && rdd08sdp_get_footer(sdp) == RDD08SDP_FOOTER &&
                 rdd08sdp_get_counter(sdp) == v->counter && rdd08sdp_check_cs(sdp) && rdd08sdp_validate(sdp);
    for (size_t i = 0; i < SLOTS; i++)
        equal = equal && bitstream_slot_equal(sdp, v, i);
    return equal;
}

/* ---- Legal packets ---- */

static struct {
    size_t packets, words, encoded_hd, encoded_sd, parsed_hd, parsed_sd, written, read;
} equal;

static void equal_test(const char *text, FILE *file)
{
    struct value v = { .counter = take_number(&text) };
    struct words p = take_words(&text);
    for (size_t i = 0; i < SLOTS; i++)
        take_slot(&v.slots[i], file);
    equal.packets++;
    equal.words += p.len;
    equal.encoded_hd += gstreamer_encodes_equal(&p, 1920);
    equal.encoded_sd += gstreamer_encodes_equal(&p, 720);
    equal.parsed_hd += gstreamer_parses_equal(&p, 1920);
    equal.parsed_sd += gstreamer_parses_equal(&p, 720);
    equal.written += bitstream_writes_equal(&p);
    equal.read += bitstream_reads_equal(&p, &v);
}

static bool print_equal(void)
{
    printf("packets checked: %zu (%zu words), of all 32 patterns of full and empty slots\n", equal.packets, equal.words);
    printf("GStreamer encoder, v210: all words equal: %zu (HD line), %zu (SD line)\n", equal.encoded_hd, equal.encoded_sd);
    printf("GStreamer parser, v210: DID, SDID, DC and all bytes equal: %zu (HD line), %zu (SD line)\n", equal.parsed_hd, equal.parsed_sd);
    printf("biTStream s291: all words equal: %zu\n", equal.written);
    printf("biTStream s291, rdd08: checksums, counter, lines, fields and rows read back equal: %zu\n", equal.read);
    size_t all = equal.encoded_hd + equal.encoded_sd + equal.parsed_hd + equal.parsed_sd + equal.written + equal.read;
    printf("SUMMARY subtitling packet: comparisons %zu, equal %zu, differences %zu\n", 6 * equal.packets, all, 6 * equal.packets - all);
    return equal.packets > 0 && all == 6 * equal.packets;
}

/* ---- Special packets ---- */

static bool same_bytes(const GstVideoAncillary *anc, const struct words *p)
{
    bool same = FIRST_USER + (size_t)anc->data_count <= p->len;
    for (size_t i = 0; same && i < anc->data_count; i++)
        same = anc->data[i] == (p->w[FIRST_USER + i] & 0xFF);
    return same;
}

static void print_gstreamer(const struct words *p)
{
    static GstVideoAncillary anc;
    for (size_t i = 0; i < p->len; i++) {
        if (p->w[i] > 1023) {
            printf("cannot be put into v210");
            return;
        }
    }
    GstVideoVBIParserResult r = gstreamer_parses(p, 1920, &anc);
    if (r == GST_VIDEO_VBI_PARSER_RESULT_DONE) {
        printf("nothing found");
    } else if (r == GST_VIDEO_VBI_PARSER_RESULT_ERROR) {
        printf("error");
    } else {
        printf("handed on: DID %02X SDID %02X, %d bytes%s", anc.DID, anc.SDID_block_number, anc.data_count,
               same_bytes(&anc, p) ? " as they are" : ", others than the packet has");
    }
}

/* What biTStream's functions answer. They are asked only for words that are there. */
static void print_bitstream(const struct words *p)
{
    const uint16_t *sdp = s291_get_udw(p->w);
    size_t dc = s291_get_dc(p->w), length = rdd08sdp_get_length(sdp);
    if (dc + 7 > p->len || length + 6 > p->len) {
        printf("not asked: DC %zu, %zu words", dc, p->len);
        return;
    }
    printf("s291_check_cs %s, rdd08sdp_check_cs %s, rdd08sdp_validate %s", s291_check_cs(p->w) ? "true" : "FALSE",
           rdd08sdp_check_cs(sdp) ? "true" : "FALSE", rdd08sdp_validate(sdp) ? "true" : "FALSE");
}

/* Whether the library's number is that of RULES. */
static bool observe(const char *text)
{
    int number = take_number(&text), ours = take_number(&text);
    struct words p = take_words(&text);
    printf("%2d  %s | ours: ", number, text);
    if (ours)
        printf("refused %d", ours);
    else
        printf("accepted");
    printf(" | GStreamer: ");
    print_gstreamer(&p);
    printf(" | biTStream: ");
    print_bitstream(&p);
    printf("\n");
    return ours == number;
}

int main(int argc, char **argv)
{
    size_t cases = 0, as_expected = 0;
    gst_init(&argc, &argv);
    gchar *version = gst_version_string();
    printf("== Subtitling packet, against libgstvideo of %s and the headers of biTStream\n", version);
    g_free(version);
    FILE *file = argc == 2 ? fopen(argv[1], "r") : NULL;
    if (!file)
        fail("no file of packets");
    bool all_equal = false;
    for (const char *line, *text; (line = next_line(file));) {
        if (begins(line, "packet", &text)) {
            equal_test(text, file);
        } else if (begins(line, "case", &text)) {
            if (cases++ == 0)
                all_equal = print_equal();
            as_expected += observe(text);
        } else {
            fail("a line that cannot be read");
        }
    }
    printf("SUMMARY subtitling packet: packets observed %zu, our answer as RULES has it %zu\n", cases, as_expected);
    return !all_equal || cases == 0 || as_expected != cases;
}
