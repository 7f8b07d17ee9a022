/* Carries subtitles and wide-screen signalling in one multipacket, and takes the subtitling packet out again. */
#include "captions.h"

#include <stdio.h>
#include <string.h>

enum { USER = 6 /* the word of a packet at which its user words begin */ };

/* A subtitling packet with one line of teletext: line 21 of the odd field, page 8xx, row 20. */
static size_t make_subtitles(uint16_t *words)
{
    captions_slot slots[CAPTIONS_SLOTS] = { { .full = 1, .line = 21, .field = 1 } };
    captions_row rows[CAPTIONS_SLOTS] = { { { 0 } } };
    memset(rows[0].bytes, 0x20, sizeof rows[0].bytes);
    memcpy(rows[0].bytes, (const uint8_t[]){ 0x15, 0x8C, 0xC8, 0xE5 }, 4);
    return captions_packet_write(4660, slots, rows, words, CAPTIONS_PACKET_WORDS).len;
}

static void print_words(const uint16_t *words, size_t count)
{
    for (size_t i = 0; i < count && i < 6; i++)
        printf(" %03X", words[i]);
    printf(count > 6 ? " ..\n" : "\n");
}

int main(void)
{
    /*
     * The words that are lent: a whole subtitling packet, and behind it the user words of wide-screen signalling (WSS). Words
     * have their parity bits. An inner packet points to its user words; what stands around them is not looked at.
     */
    uint16_t words[CAPTIONS_PACKET_WORDS + 2];
    size_t len = make_subtitles(words);
    const captions_inner packets[] = {
        { .line = 12, .field = 1, .did = 0x43, .sdid = 0x02, .at = USER, .count = (uint16_t)(len - USER - 1) },
        { .line = 11, .field = 1, .did = 0x50, .sdid = 0x01, .at = (uint16_t)len, .count = 2 },
    };
    words[len++] = 0x108;
    words[len++] = 0x200;

    uint16_t made_words[CAPTIONS_MULTI_WORDS];
    captions_written made = captions_multi_write(1, packets, 2, words, len, made_words, CAPTIONS_MULTI_WORDS);
    if (made.refusal.number != CAPTIONS_ACCEPTED) {
        printf("refused %d at %zu\n", made.refusal.number, made.refusal.place);
        return 1;
    }
    printf("a multipacket of %zu words:", made.len);
    print_words(made_words, made.len);

    /* Reading copies no user word: `at` counts in the words that were read. */
    captions_inner inners[CAPTIONS_INNERS];
    captions_multi multi = captions_multi_read(made_words, made.len, inners);
    printf("priority %d, %zu inner packets\n", multi.priority, multi.n);
    for (size_t i = 0; i < multi.n; i++) {
        const uint16_t *user = made_words + inners[i].at;
        printf("  line %d, %s field, did %02X, sdid %02X (words %03X %03X), %d user words from word %d on:", inners[i].line,
               inners[i].field ? "odd" : "even", inners[i].did, inners[i].sdid, user[-3], user[-2], inners[i].count, inners[i].at);
        print_words(user, inners[i].count);
    }

    /* From NDID, three words before the user words, to NCS behind them it is a packet but for the flag. NCS is its CS. */
    uint16_t packet[CAPTIONS_PACKET_WORDS] = { 0x000, 0x3FF, 0x3FF };
    size_t packet_len = USER + (size_t)inners[0].count + 1;
    memcpy(packet + 3, made_words + inners[0].at - 3, (packet_len - 3) * sizeof packet[0]);
    captions_row rows[CAPTIONS_SLOTS];
    captions_packet subtitles = captions_packet_read(packet, packet_len, rows);
    printf("the subtitling packet: counter %u, slot 0 on line %d, row %02X %02X %02X %02X ..\n", (unsigned)subtitles.counter,
           subtitles.slots[0].line, rows[0].bytes[0], rows[0].bytes[1], rows[0].bytes[2], rows[0].bytes[3]);
    printf("the words of the packet that went in: %s\n", memcmp(packet, words, packet_len * sizeof packet[0]) == 0 ? "yes" : "no");

    /* What was read is written back with the same inner packets and the words that were read. */
    uint16_t again[CAPTIONS_MULTI_WORDS];
    captions_written back = captions_multi_write(multi.priority, inners, multi.n, made_words, made.len, again, made.len);
    printf("written back as it was: %s\n",
           back.len == made.len && memcmp(again, made_words, made.len * sizeof again[0]) == 0 ? "yes" : "no");

    /* A wrong word refuses the whole multipacket. The place is that word. */
    made_words[inners[1].at] ^= 0x100;
    multi = captions_multi_read(made_words, made.len, inners);
    printf("a WSS word of wrong parity: refused %d at %zu\n", multi.refusal.number, multi.refusal.place);
    return 0;
}
