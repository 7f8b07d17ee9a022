/*
 * groups.h: how often a run of random.c met data groups, which are foreign though they begin with 03 (02, request 3), and values
 * to write that would begin one.
 */
#ifndef GROUPS_H
#define GROUPS_H

#include "harness.h"

/* One case of SCTE 20, by the model's outcome. */
void note_groups(question *q, const outcome *by_model, bool area_refused);

void print_groups(void);

/* Whether each way to meet one arose often enough; prints those that did not. */
bool enough_groups(void);

#endif
