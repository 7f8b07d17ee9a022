/*
 * multi_notes.h: what a run of random.c met of multipackets: how many inner packets and words, each fault, where it was, and
 * two faults in one call.
 */
#ifndef MULTI_NOTES_H
#define MULTI_NOTES_H

#include "harness.h"

/* One question of an operation of multipackets, by the model's outcome. */
void note_multi(const question *q, const outcome *by_model);

void print_multi(void);

/* Whether each arose often enough; prints those that did not. */
bool enough_multi(void);

#endif
