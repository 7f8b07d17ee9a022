/* multi_values.h: random values of multipackets: legal ones, and what is to be written. */
#ifndef MULTI_VALUES_H
#define MULTI_VALUES_H

#include "multi_faults.h"

/* A legal value. The user words of each inner packet have room behind them for 255. */
void legal_multi(dice *d, multi_value *to);

/* Makes one of its inner packets a subtitling packet: with structures for most faults, and for a wrong count often without. */
void give_subtitles(dice *d, multi_value *value, size_t i, inner_fault fault);

/* Takes user words from inner packets that carry anything, and then inner packets, until the value has no more user words. */
void fit(multi_value *value, size_t most);

/* A question of writing: legal, or with one or two faults. */
void multi_write_case(dice *d, question *q, bool legal);

#endif
