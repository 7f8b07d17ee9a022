/* Reads the caption unit of a picture's user data area, and puts another in its place. */
#include "captions.h"

#include <stdio.h>
#include <string.h>

/*
 * A foreign unit, the caption unit of case A (docs/RULES.md), and a foreign unit behind it: a data group of another syntax,
 * which the 09 behind its 03 tells from a second caption unit.
 */
static const uint8_t area[] = {
    0x00, 0x00, 0x01, 0xB2, 'D', 'T', 'G', '1', 0x41,
    0x00, 0x00, 0x01, 0xB2, 0x03, 0x81, 0x08, 0xAC, 0xA4, 0xD2, 0x00,
    0x00, 0x00, 0x01, 0xB2, 0x03, 0x09, 0x94, 0x2C,
};

static void list(const captions_record *records, size_t n)
{
    for (size_t i = 0; i < n; i++)
        printf("  priority %d, display field %d, line %d: %02X %02X\n", records[i].cc_priority, records[i].field_number,
               records[i].line_offset, records[i].cc_data_1, records[i].cc_data_2);
}

int main(void)
{
    captions_record records[CAPTIONS_RECORDS];
    captions_unit unit = captions_area_read(area, sizeof area, records);
    if (unit.refusal.number != CAPTIONS_ACCEPTED) {
        printf("refused %d at %zu\n", unit.refusal.number, unit.refusal.place);
        return 1;
    }
    printf("a caption unit: %s\n", unit.present ? "yes" : "no");
    list(records, unit.n);

    /* One record more, on the second field. The reserved bits, the flag and the stuffing stay as they were read. */
    records[unit.n] = (captions_record){ .cc_priority = 1, .field_number = 2, .line_offset = 11, .cc_data_1 = 0x80, .cc_data_2 = 0x80 };
    uint8_t out[CAPTIONS_AREA_BYTES];
    captions_written made = captions_area_replace(area, sizeof area, unit.reserved, unit.vbi_data_flag, unit.n + 1, unit.z, records,
                                                  out, sizeof out);
    if (made.refusal.number != CAPTIONS_ACCEPTED) {
        printf("refused %d at %zu\n", made.refusal.number, made.refusal.place);
        return 1;
    }
    printf("a new area of %zu bytes, its foreign units untouched: %s\n", made.len,
           memcmp(out, area, 9) == 0 && memcmp(out + made.len - 8, area + sizeof area - 8, 8) == 0 ? "yes" : "no");
    unit = captions_area_read(out, made.len, records);
    list(records, unit.n);

    /* Field number 0 is forbidden, and nothing is repaired. */
    records[0].field_number = 0;
    made = captions_unit_write(64, 1, 1, 0, records, out, sizeof out);
    printf("field number 0: refused %d at %zu\n", made.refusal.number, made.refusal.place);

    /* Together they are 09, so that the unit would be a data group. */
    made = captions_unit_write(4, 1, 0, 0, records, out, sizeof out);
    printf("reserved 4 with flag 1: refused %d at %zu\n", made.refusal.number, made.refusal.place);
    return 0;
}
