/* reel_trips.h: a reel, by the other call, payload by payload, and back; by the library alone. */
#ifndef REEL_TRIPS_H
#define REEL_TRIPS_H

#include "harness.h"

/*
 * Null where the call over structs and the one over bytes answer alike; where single calls of captions_payload_write, one
 * behind the other, store the same bytes, or the first of them that is refused has the same number; and where the payloads
 * that were written, read one behind the other, give the run back. Else what differs. `made` counts the trips.
 */
const char *reel_trip(const question *q, const outcome *got, unsigned long *made);

#endif
