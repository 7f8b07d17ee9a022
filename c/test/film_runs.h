/*
 * film_runs.h: runs of film, asked and compared. harness.h has the question and the outcome: of an outcome's numbers each call has
 * three, of its memory each has its own output, and there is a state behind each.
 */
#ifndef FILM_RUNS_H
#define FILM_RUNS_H

#include "harness.h"

void film_open(void);
bool film_arenas_are_whole(void);

/* ask, outcome_begin and the last part of difference, for a run. */
bool film_ask(const calls *who, const question *q, spoil spoiling, outcome *got);
void film_begin(const question *q, outcome *o);
const char *film_difference(const question *q, const outcome *expected, const outcome *got);

/* The state before call i, as the outcome has it. */
captions_film film_before(const question *q, const outcome *o, size_t i);

/* Whether call i was accepted. */
bool film_accepted(const outcome *o, size_t i);

/* The output of call i. */
const uint8_t *film_output(const outcome *o, size_t i);

/* The access unit at a place of that output. */
captions_access_unit film_unit(const outcome *o, size_t i, size_t place);

/* Whether no call leaves it: a number of slots or a flag above 1, a slot that does not wait, or bytes in an invalid one. */
bool film_is_bad(captions_film state);

#endif
