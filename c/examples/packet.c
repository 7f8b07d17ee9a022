/* Writes a subtitling packet with one teletext line, and reads it back. */
#include "captions.h"

#include <stdio.h>
#include <string.h>

int main(void)
{
    /* Slot 0 is full: line 21 of the odd field. The other four are empty, and so are their rows. */
    captions_slot slots[CAPTIONS_SLOTS] = { { .full = 1, .line = 21, .field = 1 } };
    captions_row rows[CAPTIONS_SLOTS] = { { { 0 } } };
    memset(rows[0].bytes, 0x20, sizeof rows[0].bytes);

    uint16_t words[CAPTIONS_PACKET_WORDS];
    captions_written made = captions_packet_write(4660, slots, rows, words, CAPTIONS_PACKET_WORDS);
    if (made.refusal.number != CAPTIONS_ACCEPTED) {
        printf("refused %d at %zu\n", made.refusal.number, made.refusal.place);
        return 1;
    }
    printf("%zu words: %03X %03X %03X %03X %03X %03X .. %03X\n", made.len, words[0], words[1], words[2], words[3], words[4], words[5],
           words[made.len - 1]);

    captions_row back[CAPTIONS_SLOTS];
    captions_packet packet = captions_packet_read(words, made.len, back);
    printf("counter %u, slot 0: full %d, line %d, field %s, row as written: %s\n", (unsigned)packet.counter, packet.slots[0].full,
           packet.slots[0].line, packet.slots[0].field ? "odd" : "even", memcmp(back, rows, sizeof rows) == 0 ? "yes" : "no");

    /* CS is judged: a word that is another refuses the packet, and `back` stays as it is. The place is that word. */
    words[made.len - 1] ^= 1;
    packet = captions_packet_read(words, made.len, back);
    printf("a wrong CS: refused %d at %zu\n", packet.refusal.number, packet.refusal.place);
    return 0;
}
