/* Reads a Line 21 RTP payload, and writes it again with one access unit more. */
#include "captions.h"

#include <stdio.h>

int main(void)
{
    /* Case M of docs/RULES.md: the flags byte, then one access unit. */
    static const uint8_t payload[] = { 0x00, 0x80, 0x94, 0x2C, 0x00, 0x00 };
    captions_access_unit units[CAPTIONS_ACCESS_UNITS];
    captions_payload head = captions_payload_read(payload, sizeof payload, units);
    if (head.refusal.number != CAPTIONS_ACCEPTED) {
        printf("refused %d at %zu\n", head.refusal.number, head.refusal.place);
        return 1;
    }
    printf("flags %02X, %zu unit: field 1 valid %d: %02X %02X, field 2 valid %d: %02X %02X\n", head.flags, head.m, units[0].cc_valid_1,
           units[0].field1_data1, units[0].field1_data2, units[0].cc_valid_2, units[0].field2_data1, units[0].field2_data2);

    units[head.m] = (captions_access_unit){ .cc_valid_1 = 1, .cc_valid_2 = 1, .padding = 63,
                                            .field1_data1 = 0x14, .field1_data2 = 0x20, .field2_data1 = 0x94, .field2_data2 = 0xD0 };
    uint8_t out[CAPTIONS_PAYLOAD_BYTES];
    captions_written made = captions_payload_write(head.flags, head.m + 1, units, out, sizeof out);
    printf("written:");
    for (size_t i = 0; i < made.len; i++)
        printf(" %02X", out[i]);
    printf("\n");

    /* Ten bytes are too few for two access units: nothing is stored. */
    made = captions_payload_write(head.flags, head.m + 1, units, out, 10);
    printf("no room: refused %d at %zu\n", made.refusal.number, made.refusal.place);
    return 0;
}
