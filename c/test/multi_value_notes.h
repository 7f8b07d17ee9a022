/* multi_value_notes.h: what a run of random.c met of multipackets that are written. A part of multi_notes.h. */
#ifndef MULTI_VALUE_NOTES_H
#define MULTI_VALUE_NOTES_H

#include "harness.h"
#include "tell.h"

enum { MULTI_LINES = 32 };

/* One value, by the model's outcome. */
void note_multi_value(const question *q, const outcome *by_model);

/* Calls `with` for each count. */
void tell_multi_values(teller with);

/* In multi_notes.c: where inner packet k of n is: the first of several, one between, the last. POSITIONS where n is 1. */
typedef enum position { FIRST, BETWEEN, LAST, POSITIONS } position;

extern const char *const position_names[POSITIONS];
position position_of(size_t k, size_t n);

/* When a later inner packet's fault would be found, if each check were made of all inner packets before the next check. */
typedef enum rank { BEFORE, NOT_BEFORE, RANKS } rank;

extern const char *const rank_names[RANKS];
rank rank_of(int first, int later);

#endif
