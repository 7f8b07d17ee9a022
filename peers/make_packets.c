/*
 * make_packets: the library's side of the subtitling packet. Prints the packets that packet_test holds to the peers:
 *
 *   packet COUNTER WORDS           a packet that the library wrote, its words as two bytes each
 *   slot FULL LINE FIELD ROW       five of them behind it: what it was written from
 *   case NUMBER OURS WORDS WHAT    a special packet: the number of RULES, that of the library
 */
#include "captions.h"
#include "lines.h"
#include "words.h"

#include <stdlib.h>

#include <bitstream/smpte/291.h>

enum { PACKETS = 2000 };

static uint32_t random_below(uint32_t limit)
{
    static uint64_t state = 0x9E3779B97F4A7C15;
    state ^= state << 13;
    state ^= state >> 7;
    state ^= state << 17;
    return (uint32_t)(state >> 32) % limit;
}

/* ---- Values and packets ---- */

struct value {
    uint32_t counter;
    captions_slot slots[CAPTIONS_SLOTS];
    captions_row rows[CAPTIONS_SLOTS];
};

static void random_slot(struct value *v, size_t i)
{
    captions_slot *s = &v->slots[i];
    s->full = 1;
    s->line = (uint8_t)(random_below(8) ? 6 + random_below(17) : 0);
    s->reserved = (uint8_t)random_below(4);
    s->field = (uint8_t)random_below(2);
    if (s->line == 0 && s->reserved == 0)
        s->field = 1; /* a descriptor of 0 is an empty slot */
    for (size_t j = 0; j < CAPTIONS_ROW_BYTES; j++)
        v->rows[i].bytes[j] = (uint8_t)random_below(256);
}

/* Packet n has a full slot where bit i of n is set, so that all 32 patterns of full and empty slots are met. */
static struct value random_value(unsigned n)
{
    struct value v = { .counter = random_below(65536) };
    for (size_t i = 0; i < CAPTIONS_SLOTS; i++)
        if (n >> i & 1)
            random_slot(&v, i);
    return v;
}

static struct words write_packet(const struct value *v)
{
    struct words p = { 0 };
    captions_written w = captions_packet_write(v->counter, v->slots, v->rows, p.w, MAX_WORDS);
    if (w.refusal.number) {
        fprintf(stderr, "the library refused a legal value: %d\n", w.refusal.number);
        exit(2);
    }
    p.len = w.len;
    return p;
}

/* ---- Defects ---- */

struct defect {
    int number;
    const char *what;
    struct words (*make)(void);
};

/* The packet that the defects start from: two full slots, on line 21 of the odd and of the even field, counter 4660. */
static size_t base_bytes(uint8_t bytes[256])
{
    struct value v = { .counter = 4660 };
    for (size_t i = 0; i < 2; i++) {
        v.slots[i] = (captions_slot){ .full = 1, .line = 21, .field = i == 0 };
        for (size_t j = 0; j < CAPTIONS_ROW_BYTES; j++)
            v.rows[i].bytes[j] = (uint8_t)(0x20 + j);
    }
    struct words p = write_packet(&v);
    return user_bytes(&p, bytes);
}

static struct words base(void)
{
    uint8_t bytes[256];
    size_t n = base_bytes(bytes);
    return bitstream_packet(0x43, 0x02, bytes, n);
}

/* One byte other, with both checksums, the SDP's and CS, made right again, so that only this defect is left. */
static struct words with_byte(size_t place, uint8_t byte)
{
    uint8_t bytes[256];
    size_t n = base_bytes(bytes);
    bytes[n - 1] = (uint8_t)(bytes[n - 1] + bytes[place] - byte);
    bytes[place] = byte;
    return bitstream_packet(0x43, 0x02, bytes, n);
}

/* One word other, and nothing made right. */
static struct words with_word(size_t place, uint16_t word)
{
    struct words p = base();
    p.w[place] = word;
    return p;
}

/* One word other, with CS made right again. */
static struct words with_word_and_cs(size_t place, uint16_t word)
{
    struct words p = with_word(place, word);
    s291_set_cs(p.w);
    return p;
}

static struct words legal(void) { return base(); }
static struct words too_long(void)
{
    struct value v = random_value(31);
    struct words p = write_packet(&v);
    p.w[p.len++] = 0x040;
    return p;
}
static struct words cut_short(void)
{
    struct words p = base();
    p.len = 19;
    return p;
}
static struct words flag_wrong(void) { return with_word(1, 0x3FE); }
static struct words did_parity(void) { return with_word_and_cs(3, 0x243); }
static struct words dc_parity(void) { return with_word_and_cs(5, base().w[5] ^ 0x300); }
static struct words user_parity(void) { return with_word_and_cs(20, base().w[20] ^ 0x300); }
static struct words user_b9(void) { return with_word(20, base().w[20] ^ 0x200); }
static struct words above_1023(void) { return with_word(20, base().w[20] | 0x400); }
static struct words cs_b9(void)
{
    struct words p = base();
    p.w[p.len - 1] ^= 0x200;
    return p;
}
static struct words other_did(void)
{
    uint8_t bytes[256];
    size_t n = base_bytes(bytes);
    return bitstream_packet(0x61, 0x02, bytes, n);
}
static struct words other_sdid(void)
{
    uint8_t bytes[256];
    size_t n = base_bytes(bytes);
    return bitstream_packet(0x43, 0x03, bytes, n);
}
static struct words identifier(void) { return with_byte(0, 0x52); }
static struct words format(void) { return with_byte(3, 0x03); }
static struct words run_in(void) { return with_byte(9, 0x54); }
static struct words framing(void) { return with_byte(11, 0x26); }
static struct words footer(void) { return with_byte(99, 0x75); }
/* DC other than the words that are there; the word where CS is then looked for is left as it is. */
static struct words dc_more(void)
{
    uint8_t dc = (uint8_t)(base().w[5] + 1);
    return with_word(5, dc | s291_parity(dc));
}
static struct words dc_less(void)
{
    uint8_t dc = (uint8_t)(base().w[5] - 1);
    return with_word(5, dc | s291_parity(dc));
}
static struct words length_other(void) { return with_byte(2, 102); }
static struct words third_descriptor(void) { return with_byte(6, 0x95); }
static struct words second_descriptor_0(void) { return with_byte(5, 0x00); }
static struct words line_5(void) { return with_byte(4, 0x85); }
static struct words line_23(void) { return with_byte(4, 0x97); }
static struct words sdp_checksum(void)
{
    struct words p = base();
    uint8_t byte = (uint8_t)(p.w[p.len - 2] + 1);
    return with_word_and_cs(p.len - 2, byte | s291_parity(byte));
}
static struct words cs_wrong(void)
{
    struct words p = base();
    uint16_t cs = (p.w[p.len - 1] + 1) & 0x1FF;
    p.w[p.len - 1] = cs | (~cs & 0x100) << 1;
    return p;
}
static struct words two_bits_flipped(void)
{
    struct words p = base();
    p.w[20] ^= 0x003; /* the parity stays right, both checksums do not */
    return p;
}

static const struct defect defects[] = {
    { 0, "a legal packet of two slots (110 words)", legal },
    { 1, "246 words: five slots and one word more", too_long },
    { 2, "flag words 000 3FE 3FF", flag_wrong },
    { 5, "19 words, cut", cut_short },
    { 6, "DID 61", other_did },
    { 6, "SDID 03", other_sdid },
    { 6, "first identifier 52", identifier },
    { 6, "format 03", format },
    { 6, "footer 75", footer },
    { 7, "descriptor with line 5", line_5 },
    { 7, "descriptor with line 23", line_23 },
    { 11, "DID 243: both parity bits wrong, CS fits", did_parity },
    { 11, "DC with both parity bits wrong, CS fits", dc_parity },
    { 11, "a user word with both parity bits wrong, CS fits", user_parity },
    { 11, "a user word with b9 equal to b8, CS fits", user_b9 },
    { 11, "CS with b9 equal to b8", cs_b9 },
    { 11, "a user word with b10 set (above 1023)", above_1023 },
    { 12, "SDP checksum one more, CS fits", sdp_checksum },
    { 12, "CS one more", cs_wrong },
    { 12, "two bits of one user byte flipped", two_bits_flipped },
    { 13, "DC one more than the words that are there", dc_more },
    { 13, "DC one less", dc_less },
    { 13, "LENGTH one less than DC", length_other },
    { 13, "a third descriptor without a structure", third_descriptor },
    { 13, "second descriptor 0, its structure there", second_descriptor_0 },
    { 20, "run-in 54", run_in },
    { 20, "framing code 26", framing },
};

/* ---- All ---- */

static void print_words(const struct words *p)
{
    for (size_t i = 0; i < p->len; i++)
        printf("%04X", p->w[i]);
}

static void print_packet(const struct value *v)
{
    struct words p = write_packet(v);
    printf("packet %u ", v->counter);
    print_words(&p);
    printf("\n");
    for (size_t i = 0; i < CAPTIONS_SLOTS; i++) {
        printf("slot %d %d %d ", v->slots[i].full, v->slots[i].line, v->slots[i].field);
        print_bytes(v->rows[i].bytes, CAPTIONS_ROW_BYTES);
        printf("\n");
    }
}

static void print_case(const struct defect *d)
{
    captions_row rows[CAPTIONS_SLOTS];
    struct words p = d->make();
    printf("case %d %d ", d->number, captions_packet_read(p.w, p.len, rows).refusal.number);
    print_words(&p);
    printf(" %s\n", d->what);
}

int main(void)
{
    for (unsigned n = 0; n < PACKETS; n++) {
        struct value v = random_value(n);
        print_packet(&v);
    }
    for (size_t i = 0; i < sizeof defects / sizeof defects[0]; i++)
        print_case(&defects[i]);
    return fflush(stdout) != 0;
}
