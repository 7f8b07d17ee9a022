/* areas.h: the areas of a stream, out of a file, and calls over all of them in turn. */
#ifndef AREAS_H
#define AREAS_H

#include "rows.h"

/* How many areas a file had, and the lengths of the shortest and the longest. */
typedef struct areas_told {
    size_t count;
    size_t least;
    size_t most;
} areas_told;

/*
 * Takes the areas of a file: of each the length in four bytes, the least significant first, then its bytes. Says why it
 * cannot, and then the count is 0.
 */
areas_told load_areas(const char *path);

/* AREA_READ, AREA_REPLACE, GA94_READ or GA94_REPLACE of that program, `times` over the areas in turn. */
void run_on_areas(enum call call, const calls *c, size_t times);

/* Whether plain C and the library agree on each area in that call. */
bool agree_on_areas(enum call call, const calls *plain);

#endif
