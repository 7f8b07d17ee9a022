/* cases.h: one random question, and rooms for one. */
#ifndef CASES_H
#define CASES_H

#include "generate.h"

void make_case(dice *d, question *q);

/* Room for `len` elements: exactly, or more, or much more. And any room up to `most`, which is often too short. */
size_t enough_room(dice *d, size_t len, size_t most);
size_t any_room(dice *d, size_t len, size_t most);

#endif
