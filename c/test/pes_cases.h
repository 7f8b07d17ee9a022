/* pes_cases.h: random data fields, values of them, and packets to convert into one. */
#ifndef PES_CASES_H
#define PES_CASES_H

#include "generate.h"

/* One question of an operation of data fields: legal, or with faults that the operation can have. Some stay legal. */
void pes_case(dice *d, question *q, bool legal);

#endif
