/* Reads the GA94 unit of a picture's user data area, and puts another in its place. */
#include "captions.h"

#include <stdio.h>
#include <string.h>

/* An SCTE 20 caption unit, which is foreign here, and behind it a GA94 unit of two constructs. */
static const uint8_t area[] = {
    0x00, 0x00, 0x01, 0xB2, 0x03, 0x81, 0x08, 0xAC, 0xA4, 0xD2, 0x00,
    0x00, 0x00, 0x01, 0xB2, 'G', 'A', '9', '4', 0x03, 0x42, 0xFF, 0xFC, 0x94, 0x2C, 0xF9, 0x80, 0x80, 0xFF,
};

static void list(const captions_ga94_record *records, size_t n)
{
    for (size_t i = 0; i < n; i++)
        printf("  valid %d, type %d: %02X %02X\n", records[i].cc_valid, records[i].cc_type, records[i].cc_data_1,
               records[i].cc_data_2);
}

int main(void)
{
    captions_ga94_record records[CAPTIONS_RECORDS];
    captions_ga94_unit unit = captions_ga94_read(area, sizeof area, records);
    if (unit.refusal.number != CAPTIONS_ACCEPTED) {
        printf("refused %d at %zu\n", unit.refusal.number, unit.refusal.place);
        return 1;
    }
    printf("a GA94 unit: %s, em_data %u\n", unit.present ? "yes" : "no", (unsigned)unit.em_data);
    list(records, unit.n);

    /* One record more. The flags, em_data and the stuffing stay as they were read. */
    records[unit.n] = (captions_ga94_record){ .cc_valid = 1, .cc_type = 3, .cc_data_1 = 0x02, .cc_data_2 = 0x21 };
    uint8_t out[CAPTIONS_AREA_BYTES];
    captions_written made = captions_ga94_replace(area, sizeof area, unit.process_em_data_flag, unit.process_cc_data_flag,
                                                  unit.additional_data_flag, unit.em_data, unit.n + 1, unit.z, records,
                                                  out, sizeof out);
    if (made.refusal.number != CAPTIONS_ACCEPTED) {
        printf("refused %d at %zu\n", made.refusal.number, made.refusal.place);
        return 1;
    }
    printf("a new area of %zu bytes, its SCTE 20 unit untouched: %s\n", made.len, memcmp(out, area, 11) == 0 ? "yes" : "no");
    unit = captions_ga94_read(out, made.len, records);
    list(records, unit.n);

    /* A unit with its third flag set is not carried. The place is a bit of the area: where to look in a hex editor. */
    out[20] |= 0x20;
    unit = captions_ga94_read(out, made.len, records);
    printf("additional_data_flag: refused %d at %zu, which is bit %zu of byte %zu\n", unit.refusal.number, unit.refusal.place,
           unit.refusal.place % 8, unit.refusal.place / 8);
    return 0;
}
