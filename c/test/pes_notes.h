/* pes_notes.h: what a run of random.c met of data fields: lines, units, faults, where they were, and two faults in one call. */
#ifndef PES_NOTES_H
#define PES_NOTES_H

#include "harness.h"

/* One question of an operation of data fields, by the model's outcome. */
void note_pes(const question *q, const outcome *by_model);

void print_pes(void);

/* Whether each arose often enough; prints those that did not. */
bool enough_pes(void);

#endif
