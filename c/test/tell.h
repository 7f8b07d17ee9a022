/* tell.h: counts of what a run of random.c met, each told under its name. */
#ifndef TELL_H
#define TELL_H

#include <stddef.h>

/* Takes a count under its name. */
typedef void (*teller)(const char *, unsigned long);

/* The least of some counts. */
void tell_least(teller with, const char *name, const unsigned long *counts, size_t count);

#endif
