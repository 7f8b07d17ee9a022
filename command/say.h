/* What the command says on standard error. */
#ifndef SAY_H
#define SAY_H

#include "options.h"

/* What a refusal's number means, in words. */
const char *meaning_of(uint8_t number);

/* Says how a call ended, and answers its status: that of a failure, where what is to be said cannot be written. */
enum status say(const options *o, outcome ended);

#endif
