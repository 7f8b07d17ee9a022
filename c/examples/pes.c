/* Carries the teletext of a subtitling packet in a PES data field, as DVB has it, and reads that back. */
#include "captions.h"

#include <stdio.h>
#include <string.h>

/* Two lines of subtitles, one in each field of the frame. Of a row the address comes first (page 8xx, rows 20 and 22). */
static size_t make_packet(uint8_t first_line, uint16_t *words)
{
    captions_slot slots[CAPTIONS_SLOTS] = { [0] = { .full = 1, .line = first_line, .field = 1 }, [2] = { .full = 1, .line = 22 } };
    captions_row rows[CAPTIONS_SLOTS] = { { { 0 } } };
    memset(rows[0].bytes, 0x20, sizeof rows[0].bytes);
    memcpy(rows[0].bytes, (const uint8_t[]){ 0x15, 0x8C, 0xC8, 0xE5 }, 4);
    memset(rows[2].bytes, 0x20, sizeof rows[2].bytes);
    memcpy(rows[2].bytes, (const uint8_t[]){ 0x15, 0x9B, 0x4F, 0x4C }, 4);
    return captions_packet_write(1, slots, rows, words, CAPTIONS_PACKET_WORDS).len;
}

static void print_bytes(const char *what, const uint8_t *bytes, size_t len)
{
    printf("%s", what);
    for (size_t i = 0; i < len; i++)
        printf(" %02X", bytes[i]);
    printf(" ..\n");
}

int main(void)
{
    uint16_t words[CAPTIONS_PACKET_WORDS];
    size_t len = make_packet(21, words);

    /* An empty slot gives nothing: 1 + 2 * 46 bytes. In the stream each byte of a row has its bits the other way round. */
    uint8_t field[CAPTIONS_PES_BYTES];
    captions_written made = captions_pes_convert(words, len, field, sizeof field);
    if (made.refusal.number != CAPTIONS_ACCEPTED) {
        printf("refused %d at %zu\n", made.refusal.number, made.refusal.place);
        return 1;
    }
    printf("%zu words make %zu bytes, data_identifier %02X\n", len, made.len, field[0]);
    print_bytes("  unit 0:", field + 1, 8);
    print_bytes("  unit 1:", field + 47, 8);

    captions_data_unit units[CAPTIONS_PES_UNITS];
    captions_pes head = captions_pes_read(field, made.len, units);
    printf("read back: %zu units\n", head.n);
    for (size_t i = 0; i < head.n; i++) {
        const captions_teletext *t = &units[i].of.teletext;
        printf("  id %02X, line %d, %s field, row", units[i].data_unit_id, t->line_offset, t->field_parity ? "first" : "second");
        print_bytes("", t->row, 4);
    }

    /* Stuffing, here one unit of it, is carried as it is. */
    units[head.n].data_unit_id = 0xFF;
    memset(units[head.n].of.stuffing, 0xFF, sizeof units[head.n].of.stuffing);
    made = captions_pes_write(head.data_identifier, head.n + 1, units, field, sizeof field);
    printf("with a unit of stuffing: %zu bytes\n", made.len);

    /* The place is the byte: the second unit begins with byte 47, and its framing code is byte 50. */
    field[50] = 0x27;
    head = captions_pes_read(field, made.len, units);
    printf("a framing code of 27: refused %d at %zu\n", head.refusal.number, head.refusal.place);

    /* Line 6 is legal in a packet and has no place in a data field. Nothing is left out: the whole packet is refused. */
    len = make_packet(6, words);
    made = captions_pes_convert(words, len, field, sizeof field);
    printf("a packet with line 6: refused %d at %zu\n", made.refusal.number, made.refusal.place);
    return 0;
}
