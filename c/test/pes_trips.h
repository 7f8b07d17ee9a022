/* pes_trips.h: data fields read and written again, and a packet's teletext followed into one; by the library alone. */
#ifndef PES_TRIPS_H
#define PES_TRIPS_H

#include "harness.h"

/*
 * Null where a data field that was read is written as it was, and one that was written is read as it was told. `made` counts
 * the trips.
 */
const char *pes_read_trip(const question *q, const outcome *got, unsigned long *made);
const char *pes_write_trip(const question *q, const outcome *got, unsigned long *made);

/*
 * The same for a conversion, accepted or not. From words it answers as captions_packet_read does where that refuses, else as
 * the conversion of the value that was read; from a value as captions_packet_write where that refuses, else as the conversion
 * of the words that were written. And the data field, read, has the full slots one behind the other, and nothing else.
 */
const char *pes_convert_trip(const question *q, const outcome *got, unsigned long *made);
const char *pes_convert_value_trip(const question *q, const outcome *got, unsigned long *made);

#endif
