/* PES packets with a data field of EN 300 472, for the programs on both sides of the test of data fields. */
#ifndef PES_H
#define PES_H

#include <stddef.h>
#include <stdint.h>

/*
 * UNIT_BYTES: of a data unit in the stream. MAX_UNITS: the most that a data field of ours has. MAX_FIELD: room for one with more.
 * SECOND_FIELD: a line of the second field is so many behind its line_offset.
 */
enum { PES_HEADER = 45, UNIT_BYTES = 46, MAX_UNITS = 31, MAX_FIELD = 4000, ROW_BYTES = 42, SECOND_FIELD = 313 };

struct field {
    size_t len;
    uint8_t data[MAX_FIELD];
};

/* Writes what stands before a data field of `len` bytes, as EN 300 472 has it: private_stream_1, aligned, with PTS, 45 bytes. */
void pes_header(uint8_t header[PES_HEADER], size_t len, uint64_t pts);

/* A number below `limit`, the same run after run. */
uint32_t random_below(uint32_t limit);

void random_bytes(uint8_t *bytes, size_t len);

/* A line_offset for the next unit of a field whose lines rise from `*next` on, at times 0. It moves `*next` behind it. */
uint8_t rising_line(uint8_t *next);

#endif
