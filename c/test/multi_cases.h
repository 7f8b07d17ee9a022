/* multi_cases.h: random multipackets, and values of them. */
#ifndef MULTI_CASES_H
#define MULTI_CASES_H

#include "generate.h"

/* One question of an operation of multipackets: legal, or with faults that the operation can have. Some stay legal. */
void multi_case(dice *d, question *q, bool legal);

#endif
