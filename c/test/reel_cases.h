/* reel_cases.h: random reels. */
#ifndef REEL_CASES_H
#define REEL_CASES_H

#include "generate.h"

/* A legal run, to be cut by a legal size. One of a hundred is long: it costs as much as hundreds of the others. */
void legal_reel(dice *d, reel_value *to);

/* How many payloads a run makes, with a size that is legal; and how many bytes the first so many of them take. */
size_t reel_payloads(const reel_value *value);
size_t reel_bytes(const reel_value *value, size_t payloads);

/*
 * One fault: in the flags, the size or one access unit; a run that ends within a unit; or a room that is too short for one
 * payload. A run of no units has fewer ways to be wrong, and may stay legal.
 */
void spoil_reel(dice *d, question *q);

#endif
