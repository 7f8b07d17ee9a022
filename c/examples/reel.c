/* Writes an archive's run of access units as payloads of three units each, in one call, and reads them back one by one. */
#include "captions.h"

#include <stdio.h>
#include <string.h>

enum {
    UNITS = 7,
    SIZE = 3,                             /* units of a payload */
    PAYLOADS = (UNITS + SIZE - 1) / SIZE, /* the last has one unit */
    BYTES = 5 * UNITS + PAYLOADS,         /* five for each unit, and a flags byte for each payload */
    FLAGS = 0x00
};

/* Seven frames of a recording: a caption on field 1 (HELLO!) and another on field 2 (HOLA), with their control codes. */
static const captions_access_unit run[UNITS] = {
    {1, 1, 0, 0x94, 0x20, 0x15, 0x20}, {1, 1, 0, 0x94, 0x70, 0x15, 0x70}, {1, 1, 0, 0xC8, 0x45, 0xC8, 0x4F},
    {1, 1, 0, 0x4C, 0x4C, 0x4C, 0xC1}, {1, 1, 0, 0x4F, 0xA1, 0x15, 0x2F}, {1, 1, 0, 0x94, 0x2F, 0x80, 0x80},
    {1, 0, 0, 0x80, 0x80, 0x00, 0x00},
};

static void print_units(const captions_access_unit *units, size_t m)
{
    for (size_t i = 0; i < m; i++) {
        printf("  %02X %02X", units[i].field1_data1, units[i].field1_data2);
        if (units[i].cc_valid_2)
            printf(" / %02X %02X\n", units[i].field2_data1, units[i].field2_data2);
        else
            printf(" / --\n");
    }
}

/* Payload after payload. Each but the last has SIZE units, so that it is known where the next begins. */
static captions_refusal list(const uint8_t *reel, size_t len)
{
    captions_access_unit units[CAPTIONS_ACCESS_UNITS];
    size_t whole = 1 + 5 * SIZE;

    for (size_t at = 0; at < len; at += whole) {
        size_t rest = len - at;
        captions_payload head = captions_payload_read(reel + at, rest < whole ? rest : whole, units);
        if (head.refusal.number != CAPTIONS_ACCEPTED)
            return head.refusal;
        printf("payload at byte %zu, flags %02X, units: %zu\n", at, head.flags, head.m);
        print_units(units, head.m);
    }
    return (captions_refusal){0};
}

static void print_refusal(const char *what, captions_refusal refusal)
{
    printf("%s: refused %d at %zu\n", what, refusal.number, refusal.place);
}

int main(void)
{
    uint8_t reel[BYTES], other[BYTES];
    captions_written made = captions_reel_write(FLAGS, SIZE, run, UNITS, reel, sizeof reel);
    if (made.refusal.number != CAPTIONS_ACCEPTED) {
        print_refusal("the reel", made.refusal);
        return 1;
    }
    printf("%d units, %d a payload: %zu bytes\n", UNITS, SIZE, made.len);
    captions_refusal refusal = list(reel, made.len);
    if (refusal.number != CAPTIONS_ACCEPTED) {
        print_refusal("a payload", refusal);
        return 1;
    }

    /* An array of structs is also a run of bytes, seven for each unit, and that call is the quicker one. */
    made = captions_reel_write_bytes(FLAGS, SIZE, (const uint8_t *)run, sizeof run, other, sizeof other);
    printf("over bytes, the same: %s\n", made.len == BYTES && memcmp(reel, other, BYTES) == 0 ? "yes" : "no");

    /* A padding of 64 has no room in its six bits. It is in the second payload, and not even the first is stored. */
    captions_access_unit wrong[UNITS];
    memcpy(wrong, run, sizeof wrong);
    wrong[4].padding = 64;
    memset(other, 0, sizeof other);
    made = captions_reel_write(FLAGS, SIZE, wrong, UNITS, other, sizeof other);
    print_refusal("a padding of 64 in the second payload", made.refusal);
    printf("  of the first, nothing is stored: %s\n", other[1] == 0 ? "yes" : "no");

    /* The checks go from payload to payload: where there is no room for the first, the second is not looked at. */
    made = captions_reel_write(FLAGS, SIZE, wrong, UNITS, other, 15);
    print_refusal("the same with 15 bytes, where the first has 16", made.refusal);
    made = captions_reel_write(FLAGS, CAPTIONS_ACCESS_UNITS + 1, run, UNITS, other, sizeof other);
    print_refusal("292 units a payload", made.refusal);
    return 0;
}
