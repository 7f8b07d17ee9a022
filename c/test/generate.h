/* generate.h: random values and inputs. What is called legal here is accepted by RULES. */
#ifndef GENERATE_H
#define GENERATE_H

#include "harness.h"

/* splitmix64. The same start gives the same rolls everywhere. */
typedef struct dice {
    uint64_t state;
} dice;

uint64_t roll(dice *d);
size_t below(dice *d, size_t limit); /* 0 to limit - 1 */
bool chance(dice *d, unsigned percent);
uint8_t any_byte(dice *d); /* often one that means something in a carriage */

/* Legal values. Places beyond n and m hold anything. */
void legal_unit(dice *d, unit_value *to);
void legal_ga94(dice *d, ga94_value *to);
void legal_packet(dice *d, packet_value *to);
void legal_payload(dice *d, payload_value *to);
captions_access_unit legal_access_unit(dice *d);

/* Which units of an area are ours. Those of the other kind are foreign, wrong ones and second ones too. */
typedef enum unit_kind { SCTE20_KIND, GA94_KIND } unit_kind;

unit_kind kind_of(operation op);
unit_kind other_kind(unit_kind kind);

/* Where the units of a generated area stand. */
enum { AREA_UNITS_MAX = 12 };

typedef struct area_map {
    unit_kind kind;
    size_t count;
    size_t starts[AREA_UNITS_MAX + 1]; /* one more: the end of the last unit */
    size_t ours;                       /* which unit is ours; count where none is */
    unit_value value;                  /* of our unit, by its kind */
    ga94_value ga94;
} area_map;

/*
 * A legal area of that kind in q->bytes: foreign units, some of them of the other kind or data groups, and in most cases a unit
 * of ours.
 */
void legal_area(dice *d, question *q, unit_kind kind, area_map *map);

/* Lengthens one unit, so that the area has `len` bytes, which is legal up to 16,384. */
void stretch_area(dice *d, question *q, area_map *map, size_t len);

#endif
