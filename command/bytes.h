/* A run of bytes that grows: an input as it is read, an output as it is made. */
#ifndef BYTES_H
#define BYTES_H

#include <stdbool.h>
#include <stddef.h>
#include <stdint.h>

/* All zero, it is empty. Whoever has one frees it. */
typedef struct bytes {
    uint8_t *at;
    size_t len;
    size_t room;
    bool is_short; /* memory ran out, and bytes are missing; from then on nothing is added */
} bytes;

/* Makes room for `more` bytes behind the last one. Answers whether it is there. */
bool reserve(bytes *b, size_t more);

void put(bytes *b, const void *from, size_t len);
void put_text(bytes *b, const char *text);
void put_byte(bytes *b, uint8_t byte);
void put_decimal(bytes *b, uint64_t n);

/* Two hex digits in capital letters. */
void put_hex(bytes *b, uint8_t byte);

/* All of `from` in hex, with nothing between the bytes. */
void put_hex_run(bytes *b, const uint8_t *from, size_t len);

void release(bytes *b);

#endif
