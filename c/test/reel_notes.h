/* reel_notes.h: what a run of random.c met of reels: sizes, lengths, faults, and two faults in one call. */
#ifndef REEL_NOTES_H
#define REEL_NOTES_H

#include "harness.h"

/* One reel, by the model's outcome. */
void note_reel(const question *q, const outcome *by_model);

void print_reels(void);

/* Whether each arose often enough; prints those that did not. */
bool enough_reels(void);

#endif
