/*
 * payloads DUMP EXPECTED: writes RTP packets with Line 21 payloads as text2pcap reads them, and the payloads' bytes, one a line.
 * The first are the library's. The last three are what it refuses, and for each its number is printed.
 */
#include "captions.h"

#include <stdio.h>
#include <stdlib.h>
#include <string.h>

enum { LEGAL = 200, RTP_HEADER = 12 };

static uint32_t random_below(uint32_t limit)
{
    static uint64_t state = 0xD1B54A32D192ED03;
    state ^= state << 13;
    state ^= state >> 7;
    state ^= state << 17;
    return (uint32_t)(state >> 32) % limit;
}

static size_t random_payload(uint8_t *out)
{
    static captions_access_unit units[CAPTIONS_ACCESS_UNITS];
    size_t m = random_below(CAPTIONS_ACCESS_UNITS + 1);
    for (size_t i = 0; i < m; i++) {
        units[i] = (captions_access_unit){
            (uint8_t)random_below(2), (uint8_t)random_below(2), (uint8_t)random_below(64), (uint8_t)random_below(256),
            (uint8_t)random_below(256), (uint8_t)random_below(256), (uint8_t)random_below(256),
        };
    }
    captions_written w = captions_payload_write(random_below(256), m, units, out, CAPTIONS_PAYLOAD_BYTES);
    if (w.refusal.number) {
        fprintf(stderr, "the library refused a legal value: %d\n", w.refusal.number);
        exit(2);
    }
    return w.len;
}

/* RTP version 2, dynamic payload type 97. */
static void print_packet(FILE *dump, FILE *expected, unsigned sequence, const uint8_t *payload, size_t len)
{
    const uint8_t high = (uint8_t)(sequence >> 8), low = (uint8_t)sequence;
    const uint8_t header[RTP_HEADER] = { 0x80, 97, high, low, 0, 0, high, low, 'p', 'e', 'e', 'r' };
    fprintf(dump, "000000");
    for (size_t i = 0; i < RTP_HEADER + len; i++)
        fprintf(dump, " %02x", i < RTP_HEADER ? header[i] : payload[i - RTP_HEADER]);
    fprintf(dump, "\n\n");
    for (size_t i = 0; i < len; i++)
        fprintf(expected, "%02x", payload[i]);
    fprintf(expected, "\n");
}

int main(int argc, char **argv)
{
    static const size_t refused[] = { CAPTIONS_PAYLOAD_BYTES + 1, 0, 7 };
    static uint8_t payload[CAPTIONS_PAYLOAD_BYTES + 1];
    FILE *dump = argc == 3 ? fopen(argv[1], "w") : NULL;
    FILE *expected = argc == 3 ? fopen(argv[2], "w") : NULL;
    if (!dump || !expected)
        return 2;
    for (unsigned n = 0; n < LEGAL; n++)
        print_packet(dump, expected, n, payload, random_payload(payload));
    memset(payload, 0x80, sizeof payload);
    for (unsigned n = 0; n < 3; n++) {
        static captions_access_unit units[CAPTIONS_ACCESS_UNITS];
        print_packet(dump, expected, LEGAL + n, payload, refused[n]);
        printf("%d\n", captions_payload_read(payload, refused[n], units).refusal.number);
    }
    return fclose(dump) != 0 || fclose(expected) != 0;
}
