/* mutate.h: legal inputs and values made wrong, or made other. Some stay legal: the model decides. */
#ifndef MUTATE_H
#define MUTATE_H

#include "generate.h"

/* Changes the area in q->bytes once. `map` says where its units stood before the first change. */
void mutate_area(dice *d, question *q, const area_map *map);

/*
 * Changes the packet in q->words once. In most cases parity, DC, LENGTH and checksums are mended, so that later checks are
 * reached.
 */
void mutate_packet(dice *d, question *q);

/*
 * A number above `most` in most cases. Often it is the right number with one upper bit set, which a type of fewer bits would
 * not see: no number may be narrowed before it is judged.
 */
uint64_t number_above(dice *d, uint64_t right, uint64_t most, unsigned bits);

/* Puts one number out of its range, or out of order. */
void spoil_unit(dice *d, unit_value *value);
void spoil_ga94(dice *d, ga94_value *value);
void spoil_packet(dice *d, packet_value *value);
void spoil_payload(dice *d, payload_value *value);
void spoil_access_unit(dice *d, captions_access_unit *unit);

#endif
