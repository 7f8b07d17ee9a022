/* show.h: a question printed as a line of the text vectors, so that it can be asked again. */
#ifndef SHOW_H
#define SHOW_H

#include "harness.h"

void show_question(const question *q, const char *tag);
void show_outcome(const question *q, const char *who, const outcome *o);

#endif
