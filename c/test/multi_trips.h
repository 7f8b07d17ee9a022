/* multi_trips.h: multipackets read and written again, and their subtitling packets taken out; by the library alone. */
#ifndef MULTI_TRIPS_H
#define MULTI_TRIPS_H

#include "harness.h"

/*
 * Null where a multipacket that was read is written as it was, with the inner packets and the very words that were read, and
 * one that was written is read as it was told. And each subtitling packet in it, from NDID to NCS behind the flag, is read as
 * one by itself, and its value is written as those words. `made` counts the trips.
 */
const char *multi_read_trip(const question *q, const outcome *got, unsigned long *made);
const char *multi_write_trip(const question *q, const outcome *got, unsigned long *made);

#endif
