/* film_trips.h: what a run of film sent, followed back to the pictures, by the library alone. */
#ifndef FILM_TRIPS_H
#define FILM_TRIPS_H

#include "harness.h"

/*
 * Null where the slots that left, followed by the one that waits, are those that accepted pictures have shown, one after the
 * other, each on its side; where the refused calls could have been left out; and where a payload carries the units that were
 * sent. Else what differs. `made` counts the trips.
 */
const char *film_trip(const question *q, const outcome *got, unsigned long *made);

#endif
