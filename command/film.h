/* A run of film in text, one picture a line. */
#ifndef FILM_H
#define FILM_H

#include "bytes.h"
#include "outcome.h"
#include "text.h"

/*
 * Carries the run into access units, which are listed in `out`. The first refusal ends it; if each line is answered by
 * itself, a refusal is listed in its place, and the outcome is that of the first one.
 */
outcome run_film(const char *name, part text, bool is_each, bool is_json, bytes *out);

#endif
