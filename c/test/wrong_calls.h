/*
 * wrong_calls.h: stand-ins for the calls of multipackets and data fields: each is the library's call with one thing made wrong.
 */
#ifndef WRONG_CALLS_H
#define WRONG_CALLS_H

#include "harness.h"

typedef captions_written (*value_call)(uint32_t, const captions_slot *, const captions_row *, uint8_t *, size_t);

/* The one call of its operation is set. */
typedef struct stand_in {
    const char *what;
    operation op;
    captions_pes (*read)(const uint8_t *, size_t, captions_data_unit *);
    captions_written (*write)(uint32_t, size_t, const captions_data_unit *, uint8_t *, size_t);
    captions_written (*convert)(const uint16_t *, size_t, uint8_t *, size_t);
    value_call convert_value;
    captions_multi (*multi_read)(const uint16_t *, size_t, captions_inner *);
    captions_written (*multi_write)(uint32_t, const captions_inner *, size_t, const uint16_t *, size_t, uint16_t *, size_t);
    unsigned long asked, noticed;
} stand_in;

enum { PES_STAND_INS = 32, MULTI_READ_STAND_INS = 27, MULTI_WRITE_STAND_INS = 25 };

/* In wrong_calls.c, wrong_multi.c and wrong_multi_write.c. */
extern stand_in pes_stand_ins[PES_STAND_INS];
extern stand_in multi_read_stand_ins[MULTI_READ_STAND_INS];
extern stand_in multi_write_stand_ins[MULTI_WRITE_STAND_INS];

#endif
