/* The words of an ancillary packet, for the programs on both sides of the test of subtitling packets. */
#ifndef WORDS_H
#define WORDS_H

#include <stddef.h>
#include <stdint.h>

/* FIRST_USER: the place of the first word of user data. */
enum { MAX_WORDS = 300, FIRST_USER = 6 };

struct words {
    size_t len;
    uint16_t w[MAX_WORDS];
};

/* The packet's user data without its parity bits, 255 bytes at the most. The answer is how many, as DC has it. */
size_t user_bytes(const struct words *p, uint8_t *bytes);

/* A packet by biTStream's functions from its bytes. */
struct words bitstream_packet(uint8_t did, uint8_t sdid, const uint8_t *bytes, size_t n);

#endif
