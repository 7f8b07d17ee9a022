/* cursor.h: the values of the text vectors, taken one behind the other from a text. */
#ifndef CURSOR_H
#define CURSOR_H

#include "harness.h"

/* A place in a text, with what went wrong on the way. */
typedef struct cursor {
    const char *at;
    bool bad;  /* the text is not formed as it should be */
    bool wide; /* a number that the C type cannot hold */
    bool as_stuffing; /* a data unit of teletext whose id is that of stuffing, as which the C type has it */
} cursor;

/* One character, where it stands there; needed, where the text is bad without it. */
bool take(cursor *c, char wanted);
void need(cursor *c, char wanted);

/* A decimal number. Above `most` it is wide, and its value is not to be used. */
uint64_t take_number(cursor *c, uint64_t most);

/* Elements of 2 hex digits (bytes) or 4 (words): segments joined by `+`, `-` for none. More than `most` are bad. */
size_t take_elements(cursor *c, unsigned digits, uint16_t *to, size_t most);
size_t take_bytes(cursor *c, uint8_t *to, size_t most);

/* Lists, and how many items they have. Items beyond the places of the array, of units `most`, are counted, not kept. */
size_t take_record_list(cursor *c, captions_record *to);
size_t take_ga94_list(cursor *c, captions_ga94_record *to);
size_t take_unit_list(cursor *c, captions_access_unit *to, size_t most);
size_t take_data_unit_list(cursor *c, captions_data_unit *to);

/*
 * Inner packets, their user words one behind the other in the words of the value, with the parity bits that they must have. And
 * those that are told by the six numbers of C's struct, decimals joined by `.`.
 */
void take_inner_list(cursor *c, multi_value *to);
void take_head_list(cursor *c, multi_value *to);

/* GA94's three flags: digits 0 or 1 in stream order. Larger ones, which no file has, are decimals joined by `.`. */
void take_flags(cursor *c, ga94_value *to);

/* Five slots with their rows. */
void take_slots(cursor *c, packet_value *to);

#endif
