/* rows.c: the inputs of the rows, and the rows; see rows.h. */
#include "rows.h"

static void foreign_random(sample *s, size_t n)
{
    (void)n;
    add_foreign(&s->area, CAPTIONS_AREA_BYTES - 4, RANDOM_BODY);
}

/* Zeros behind one byte that differs from sample to sample. */
static void foreign_zeros(sample *s, size_t n)
{
    (void)n;
    add_foreign(&s->area, CAPTIONS_AREA_BYTES - 4, ZERO_BODY);
    s->area.bytes[4] = (uint8_t)(16 + below(200));
}

static void foreign_small(sample *s, size_t n)
{
    (void)n;
    while (s->area.len < CAPTIONS_AREA_BYTES) {
        add_foreign(&s->area, 4, RANDOM_BODY);
    }
}

/* Each begins as a caption unit does, and its second byte decides. */
static void foreign_groups(sample *s, size_t n)
{
    (void)n;
    while (s->area.len < CAPTIONS_AREA_BYTES) {
        add_foreign(&s->area, 4, GROUP_BODY);
    }
}

/* Units of 60 to 260 bytes, then one that fills the area but for `left` bytes. */
static void add_text(area_input *area, size_t left)
{
    while (area->len < CAPTIONS_AREA_BYTES - 600) {
        add_foreign(area, 60 + below(200), TEXT_BODY);
    }
    add_foreign(area, CAPTIONS_AREA_BYTES - 4 - left - area->len, TEXT_BODY);
}

static void foreign_text(sample *s, size_t n)
{
    (void)n;
    add_text(&s->area, 0);
}

/* A unit of n constructs, as an area and as another value of the same size. */
static void caption_unit(sample *s, size_t n)
{
    make_unit(&s->unit, n, 0);
    carry_unit(&s->unit, &s->area);
    make_unit(&s->unit, n, 0);
}

static void stuffed_unit(sample *s, size_t n)
{
    make_unit(&s->unit, n, 16000);
    carry_unit(&s->unit, &s->area);
}

static void unit_among_foreign(sample *s, size_t n)
{
    add_foreign(&s->area, 7996, RANDOM_BODY);
    caption_unit(s, n);
    add_foreign(&s->area, 7996, RANDOM_BODY);
}

/* The longest area: text, then a caption unit of n constructs. */
static void unit_last(sample *s, size_t n)
{
    add_text(&s->area, 4 + (25 + 26 * n + 7) / 8);
    caption_unit(s, n);
}

/* All of the last construct is right but its marker, which is 0. */
static void unit_refused(sample *s, size_t n)
{
    size_t marker = 8 * 4 + 21 + 26 * n - 1;
    caption_unit(s, n);
    s->area.bytes[marker / 8] ^= (uint8_t)(0x80 >> marker % 8);
}

/* The last record has the line of the one before it. */
static void value_refused(sample *s, size_t n)
{
    caption_unit(s, n);
    s->unit.records[n - 1].field_number = s->unit.records[n - 2].field_number;
    s->unit.records[n - 1].line_offset = s->unit.records[n - 2].line_offset;
}

static void ga94_unit(sample *s, size_t n)
{
    make_ga94(&s->ga94, n, 0);
    carry_ga94(&s->ga94, &s->area);
    make_ga94(&s->ga94, n, 0);
}

static void ga94_stuffed(sample *s, size_t n)
{
    make_ga94(&s->ga94, n, 16000);
    carry_ga94(&s->ga94, &s->area);
}

static void ga94_among_foreign(sample *s, size_t n)
{
    add_foreign(&s->area, 7996, RANDOM_BODY);
    ga94_unit(s, n);
    add_foreign(&s->area, 7996, RANDOM_BODY);
}

static void ga94_last(sample *s, size_t n)
{
    add_text(&s->area, 12 + 3 * n);
    ga94_unit(s, n);
}

/* One of the five ones in the last construct's first byte is 0. */
static void ga94_refused(sample *s, size_t n)
{
    ga94_unit(s, n);
    s->area.bytes[11 + 3 * (n - 1)] ^= 0x08;
}

/* cc_type has two bits. */
static void ga94_unholdable(sample *s, size_t n)
{
    ga94_unit(s, n);
    s->ga94.records[n - 1].cc_type = 4;
}

/*
 * Both kinds, by turns either first: SCTE 20 with n constructs, GA94 with 20, as it has in each of 29.97 pictures a
 * second.
 */
static void both_kinds(sample *s, size_t n)
{
    static size_t turn;
    if (turn++ % 2 == 0) {
        caption_unit(s, n);
        ga94_unit(s, 20);
    } else {
        ga94_unit(s, 20);
        caption_unit(s, n);
    }
}

static void packet(sample *s, size_t n)
{
    make_packet(&s->numbers, n);
    carry_packet(&s->numbers, &s->packet);
}

/* CS is another sum. Its b9 is the opposite of b8 all the same. */
static void packet_refused(sample *s, size_t n)
{
    packet(s, n);
    s->packet.words[s->packet.len - 1] ^= 1;
}

/* One inner packet: a subtitling packet of n structures. */
static void subtitles(sample *s, size_t n)
{
    make_subtitles(&s->inners, n);
    carry_multi(&s->inners, &s->multi);
}

/* n inner packets that are carried, without user words, and with 45 each. */
static void inners_alone(sample *s, size_t n)
{
    make_multi(&s->inners, n, 0);
    carry_multi(&s->inners, &s->multi);
}

static void inners_of_45(sample *s, size_t n)
{
    make_multi(&s->inners, n, 45);
    carry_multi(&s->inners, &s->multi);
}

/* One that a data field can have: without line 6. */
static void packet_to_convert(sample *s, size_t n)
{
    make_packet(&s->numbers, n);
    lift_line_6(&s->numbers);
    carry_packet(&s->numbers, &s->packet);
}

static void data_field(sample *s, size_t n)
{
    make_pes(&s->teletext, n);
    carry_pes(&s->teletext, &s->pes);
}

static void payload(sample *s, size_t n)
{
    make_payload(&s->access, n);
    carry_payload(&s->access, &s->payload);
}

/*
 * The first n units of a run, by `size`. The runs are made once, one for each sample, and all rows of reels have them.
 */
static void reel(sample *s, size_t n, size_t size)
{
    static captions_access_unit runs[SAMPLES][REEL_UNITS];
    static size_t turn;
    captions_access_unit *run = runs[turn % SAMPLES];
    if (turn < SAMPLES) {
        make_run(run, REEL_UNITS);
    }
    turn++;
    s->reel = (reel_value){.flags = below(256), .size = size, .n = n, .units = run};
}

static void reel_by_1(sample *s, size_t n)
{
    reel(s, n, 1);
}

static void reel_by_15(sample *s, size_t n)
{
    reel(s, n, 15);
}

static void reel_by_291(sample *s, size_t n)
{
    reel(s, n, 291);
}

/* Four pictures in turn, which make five frames: film by 3:2 pulldown. Their first n display fields have a record. */
static void picture(sample *s, size_t n)
{
    static const struct {
        uint32_t top, repeat;
    } shown[SAMPLES] = {{1, 1}, {0, 0}, {0, 1}, {1, 0}};
    static size_t turn;
    make_picture(&s->film, shown[turn % SAMPLES].top, shown[turn % SAMPLES].repeat, n);
    turn++;
}

/* Three display fields each, so that every other picture begins with the bottom field. */
static void long_picture(sample *s, size_t n)
{
    static uint32_t turn;
    make_picture(&s->film, ++turn % 2, 1, n);
}

/* The last record is on another line. */
static void picture_refused(sample *s, size_t n)
{
    long_picture(s, n);
    s->film.unit.records[n - 1].line_offset ^= 1;
}

static void waiting_slot(sample *s, size_t n)
{
    (void)n;
    s->film.state = (captions_film){1, 1, (uint8_t)below(256), (uint8_t)below(256)};
}

const row rows[] = {
    {"scan 16,384 bytes: random", OWN, foreign_random, 0, AREA_READ, CAPTIONS_ACCEPTED},
    {"scan 16,384 bytes: zeros", OWN, foreign_zeros, 0, AREA_READ, CAPTIONS_ACCEPTED},
    {"scan 16,384 bytes: 8-byte units", OWN, foreign_small, 0, AREA_READ, CAPTIONS_ACCEPTED},
    {"scan 16,384 bytes: text", OWN, foreign_text, 0, AREA_READ, CAPTIONS_ACCEPTED},
    {"scan 16,384 bytes: data groups of 8 bytes", OWN, foreign_groups, 0, AREA_READ, CAPTIONS_ACCEPTED},
    {"scan 16,384 bytes: random: C with glibc's memchr", MEMCHR, foreign_random, 0, AREA_READ, CAPTIONS_ACCEPTED},
    {"scan 16,384 bytes: zeros: C with glibc's memchr", MEMCHR, foreign_zeros, 0, AREA_READ, CAPTIONS_ACCEPTED},
    {"scan 16,384 bytes: 8-byte units: C with glibc's memchr", MEMCHR, foreign_small, 0, AREA_READ, CAPTIONS_ACCEPTED},
    {"scan 16,384 bytes: text: C with glibc's memchr", MEMCHR, foreign_text, 0, AREA_READ, CAPTIONS_ACCEPTED},
    {"unit of 1 construct: read", OWN, caption_unit, 1, AREA_READ, CAPTIONS_ACCEPTED},
    {"unit of 1 construct: write", OWN, caption_unit, 1, UNIT_WRITE, CAPTIONS_ACCEPTED},
    {"unit of 31 constructs: read", OWN, caption_unit, 31, AREA_READ, CAPTIONS_ACCEPTED},
    {"unit of 31 constructs: write", OWN, caption_unit, 31, UNIT_WRITE, CAPTIONS_ACCEPTED},
    {"unit, 16,000 bytes stuffing: read", OWN, stuffed_unit, 1, AREA_READ, CAPTIONS_ACCEPTED},
    {"unit, 16,000 bytes stuffing: write", OWN, stuffed_unit, 1, UNIT_WRITE, CAPTIONS_ACCEPTED},
    {"unit of 31 constructs, the last refused: read", OWN, unit_refused, 31, AREA_READ, CAPTIONS_MARKER},
    {"unit of 31 constructs, the last refused: write", OWN, value_refused, 31, UNIT_WRITE, CAPTIONS_ORDER},
    {"replace 1 by 1 construct", OWN, caption_unit, 1, AREA_REPLACE, CAPTIONS_ACCEPTED},
    {"replace 31 by 31 constructs", OWN, caption_unit, 31, AREA_REPLACE, CAPTIONS_ACCEPTED},
    {"replace 1 by 1 in 16,000 bytes", OWN, unit_among_foreign, 1, AREA_REPLACE, CAPTIONS_ACCEPTED},
    {"16,384 bytes, unit of 1 construct last: read", OWN, unit_last, 1, AREA_READ, CAPTIONS_ACCEPTED},
    {"16,384 bytes, unit of 1 construct last: replace", OWN, unit_last, 1, AREA_REPLACE, CAPTIONS_ACCEPTED},
    {"GA94 unit of 1 construct: read", OWN, ga94_unit, 1, GA94_READ, CAPTIONS_ACCEPTED},
    {"GA94 unit of 1 construct: write", OWN, ga94_unit, 1, GA94_WRITE, CAPTIONS_ACCEPTED},
    {"GA94 unit of 31 constructs: read", OWN, ga94_unit, 31, GA94_READ, CAPTIONS_ACCEPTED},
    {"GA94 unit of 31 constructs: write", OWN, ga94_unit, 31, GA94_WRITE, CAPTIONS_ACCEPTED},
    {"GA94 unit, 16,000 bytes stuffing: read", OWN, ga94_stuffed, 1, GA94_READ, CAPTIONS_ACCEPTED},
    {"GA94 unit, 16,000 bytes stuffing: write", OWN, ga94_stuffed, 1, GA94_WRITE, CAPTIONS_ACCEPTED},
    {"GA94 unit of 31 constructs, the last refused: read", OWN, ga94_refused, 31, GA94_READ, CAPTIONS_MARKER},
    {"GA94 unit of 31 constructs, the last refused: write", OWN, ga94_unholdable, 31, GA94_WRITE, CAPTIONS_UNHOLDABLE},
    {"GA94: replace 1 by 1 construct", OWN, ga94_unit, 1, GA94_REPLACE, CAPTIONS_ACCEPTED},
    {"GA94: replace 31 by 31 constructs", OWN, ga94_unit, 31, GA94_REPLACE, CAPTIONS_ACCEPTED},
    {"GA94: replace 1 by 1 in 16,000 bytes", OWN, ga94_among_foreign, 1, GA94_REPLACE, CAPTIONS_ACCEPTED},
    {"16,384 bytes, GA94 unit of 1 construct last: read", OWN, ga94_last, 1, GA94_READ, CAPTIONS_ACCEPTED},
    {"16,384 bytes, GA94 unit of 1 construct last: replace", OWN, ga94_last, 1, GA94_REPLACE, CAPTIONS_ACCEPTED},
    {"both kinds, 2 and 20 constructs: read SCTE 20", OWN, both_kinds, 2, AREA_READ, CAPTIONS_ACCEPTED},
    {"both kinds, 2 and 20 constructs: read GA94", OWN, both_kinds, 2, GA94_READ, CAPTIONS_ACCEPTED},
    {"both kinds, 2 and 20 constructs: replace SCTE 20", OWN, both_kinds, 2, AREA_REPLACE, CAPTIONS_ACCEPTED},
    {"both kinds, 2 and 20 constructs: replace GA94", OWN, both_kinds, 2, GA94_REPLACE, CAPTIONS_ACCEPTED},
    {"packet of 20 words: read", OWN, packet, 0, PACKET_READ, CAPTIONS_ACCEPTED},
    {"packet of 20 words: write", OWN, packet, 0, PACKET_WRITE, CAPTIONS_ACCEPTED},
    {"packet of 245 words: read", OWN, packet, 5, PACKET_READ, CAPTIONS_ACCEPTED},
    {"packet of 245 words: write", OWN, packet, 5, PACKET_WRITE, CAPTIONS_ACCEPTED},
    {"packet of 245 words, CS refused: read", OWN, packet_refused, 5, PACKET_READ, CAPTIONS_CHECKSUM},
    {"multipacket: subtitles of 13 user words: read", OWN, subtitles, 0, MULTI_READ, CAPTIONS_ACCEPTED},
    {"multipacket: subtitles of 13 user words: write", OWN, subtitles, 0, MULTI_WRITE, CAPTIONS_ACCEPTED},
    {"multipacket: subtitles of 238 user words: read", OWN, subtitles, 5, MULTI_READ, CAPTIONS_ACCEPTED},
    {"multipacket: subtitles of 238 user words: write", OWN, subtitles, 5, MULTI_WRITE, CAPTIONS_ACCEPTED},
    {"multipacket: 50 without user words: read", OWN, inners_alone, 50, MULTI_READ, CAPTIONS_ACCEPTED},
    {"multipacket: 50 without user words: write", OWN, inners_alone, 50, MULTI_WRITE, CAPTIONS_ACCEPTED},
    {"multipacket: 5 of 45 user words: read", OWN, inners_of_45, 5, MULTI_READ, CAPTIONS_ACCEPTED},
    {"multipacket: 5 of 45 user words: write", OWN, inners_of_45, 5, MULTI_WRITE, CAPTIONS_ACCEPTED},
    {"data field of 1 unit: read", OWN, data_field, 1, PES_READ, CAPTIONS_ACCEPTED},
    {"data field of 1 unit: write", OWN, data_field, 1, PES_WRITE, CAPTIONS_ACCEPTED},
    {"data field of 31 units: read", OWN, data_field, 31, PES_READ, CAPTIONS_ACCEPTED},
    {"data field of 31 units: write", OWN, data_field, 31, PES_WRITE, CAPTIONS_ACCEPTED},
    {"packet of 245 words into a data field", OWN, packet_to_convert, 5, PES_CONVERT, CAPTIONS_ACCEPTED},
    {"packet of 245 words into a data field: value", OWN, packet_to_convert, 5, PES_CONVERT_VALUE, CAPTIONS_ACCEPTED},
    {"payload of 1 unit: read", OWN, payload, 1, PAYLOAD_READ, CAPTIONS_ACCEPTED},
    {"payload of 1 unit: write", OWN, payload, 1, PAYLOAD_WRITE, CAPTIONS_ACCEPTED},
    {"payload of 291 units: read", OWN, payload, 291, PAYLOAD_READ, CAPTIONS_ACCEPTED},
    {"payload of 291 units: write", OWN, payload, 291, PAYLOAD_WRITE, CAPTIONS_ACCEPTED},
    {"reel of 1,000 units by 1", OWN, reel_by_1, 1000, REEL_WRITE, CAPTIONS_ACCEPTED},
    {"reel of 1,000 units by 1: bytes", OWN, reel_by_1, 1000, REEL_WRITE_BYTES, CAPTIONS_ACCEPTED},
    {"reel of 1,000 units by 15", OWN, reel_by_15, 1000, REEL_WRITE, CAPTIONS_ACCEPTED},
    {"reel of 1,000 units by 15: bytes", OWN, reel_by_15, 1000, REEL_WRITE_BYTES, CAPTIONS_ACCEPTED},
    {"reel of 1,000 units by 291", OWN, reel_by_291, 1000, REEL_WRITE, CAPTIONS_ACCEPTED},
    {"reel of 1,000 units by 291: bytes", OWN, reel_by_291, 1000, REEL_WRITE_BYTES, CAPTIONS_ACCEPTED},
    {"reel of 100,000 units by 1", OWN, reel_by_1, REEL_UNITS, REEL_WRITE, CAPTIONS_ACCEPTED},
    {"reel of 100,000 units by 1: bytes", OWN, reel_by_1, REEL_UNITS, REEL_WRITE_BYTES, CAPTIONS_ACCEPTED},
    {"reel of 100,000 units by 15", OWN, reel_by_15, REEL_UNITS, REEL_WRITE, CAPTIONS_ACCEPTED},
    {"reel of 100,000 units by 15: bytes", OWN, reel_by_15, REEL_UNITS, REEL_WRITE_BYTES, CAPTIONS_ACCEPTED},
    {"reel of 100,000 units by 291", OWN, reel_by_291, REEL_UNITS, REEL_WRITE, CAPTIONS_ACCEPTED},
    {"reel of 100,000 units by 291: bytes", OWN, reel_by_291, REEL_UNITS, REEL_WRITE_BYTES, CAPTIONS_ACCEPTED},
    {"film: a picture of 1 record", OWN, picture, 1, FILM_PICTURE, CAPTIONS_ACCEPTED},
    {"film: a picture of 3 records", OWN, long_picture, 3, FILM_PICTURE, CAPTIONS_ACCEPTED},
    {"film: a picture of 3 records, the last refused", OWN, picture_refused, 3, FILM_PICTURE, CAPTIONS_OTHER_LINE},
    {"film: a closing", OWN, waiting_slot, 0, FILM_CLOSE, CAPTIONS_ACCEPTED},
};

const size_t row_count = sizeof rows / sizeof rows[0];
