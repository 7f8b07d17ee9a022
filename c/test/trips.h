/* trips.h: round trips. What was read is written again, and what was written is read again, by the library alone. */
#ifndef TRIPS_H
#define TRIPS_H

#include "harness.h"

/*
 * Goes back from an accepted outcome of the library, or from a conversion, a reel or a run of film, accepted or not. Null where
 * all is as it was, else what differs.
 * `made` counts the trips.
 */
const char *round_trip(const question *q, const outcome *got, unsigned long *made);

#endif
