/* Access units in text, in the lines that listings have. */
#ifndef REEL_H
#define REEL_H

#include "bytes.h"
#include "outcome.h"
#include "text.h"

/* A run of access units, and the flags byte that its lines tell, if any does. */
typedef struct told_run {
    bytes units; /* seven bytes for each, as the library takes them */
    bool has_flags;
    uint8_t flags;
} told_run;

outcome read_run(const char *name, part text, told_run *told);

#endif
