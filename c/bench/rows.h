/* rows.h: what the benchmark times: a call, and the inputs that it takes in turn. */
#ifndef ROWS_H
#define ROWS_H

#include "agree.h"

enum { SAMPLES = 4 }; /* inputs that a row takes in turn */

/* One input of a row. A row uses the parts that its call takes. */
typedef struct sample {
    area_input area;
    unit_value unit;
    ga94_value ga94;
    packet_input packet;
    packet_value numbers;
    multi_input multi;
    multi_value inners;
    pes_input pes;
    pes_value teletext;
    payload_input payload;
    payload_value access;
    reel_value reel;
    film_value film;
    uint64_t apart; /* see below */
} sample;

/* Samples one behind the other begin in each quarter of a line of 64 bytes once. */
_Static_assert(sizeof(sample) % 64 == 16, "a row's samples are in the same places of a line");

/* The twenty calls. */
enum call {
    AREA_READ, UNIT_WRITE, AREA_REPLACE, GA94_READ, GA94_WRITE, GA94_REPLACE, PACKET_READ, PACKET_WRITE, MULTI_READ,
    MULTI_WRITE, PES_READ, PES_WRITE, PES_CONVERT, PES_CONVERT_VALUE, PAYLOAD_READ, PAYLOAD_WRITE, REEL_WRITE,
    REEL_WRITE_BYTES, FILM_PICTURE, FILM_CLOSE, CALLS
};

/* The call of that program, `times` over the samples in turn. */
void run_call(enum call call, const calls *c, const sample *samples, size_t times);

/* Whether plain C and the library agree on the sample. */
bool agree_on_sample(enum call call, const calls *plain, const sample *s);

/* Which search plain C has in a row: its own, or glibc's memchr. */
enum search_by { OWN, MEMCHR };

typedef struct row {
    const char *name;
    enum search_by search;
    void (*make)(sample *, size_t n);
    size_t n;
    enum call call;
    uint8_t number; /* how each input must be refused, or CAPTIONS_ACCEPTED */
} row;

extern const row rows[];
extern const size_t row_count;

#endif
