/* film_notes.h: what a run of random.c met of film: states, flags, faults, and two faults in one call. */
#ifndef FILM_NOTES_H
#define FILM_NOTES_H

#include "harness.h"

/* One run, by the model's outcome. */
void note_film(const question *q, const outcome *by_model);

void print_film(void);

/* Whether each arose often enough; prints those that did not. */
bool enough_film(void);

#endif
