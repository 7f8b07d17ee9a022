/* film_parse.h: the lines `film run` of the text vectors. */
#ifndef FILM_PARSE_H
#define FILM_PARSE_H

#include "cursor.h"

/*
 * Calls joined by `;`: `close`, or `tff.rff.line/reserved.flag.n.z/RECS`. `state.waiting.valid.HHHH`, which no file has, is no
 * call: it says which bytes are put into the state before the next one.
 */
void take_film_calls(cursor *c, film_run *to);

/* `A;A;.. waiting=W`, an A for each call. */
void take_film_answers(cursor *c, const question *q, outcome *to);

#endif
