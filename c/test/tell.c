/* tell.c: see tell.h. */
#include "tell.h"

void tell_least(teller with, const char *name, const unsigned long *counts, size_t count)
{
    unsigned long least = counts[0];

    for (size_t i = 1; i < count; i++)
        if (counts[i] < least)
            least = counts[i];
    with(name, least);
}
