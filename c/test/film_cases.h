/* film_cases.h: random runs of film. */
#ifndef FILM_CASES_H
#define FILM_CASES_H

#include "generate.h"

/* A run of pictures and closings; with `legal`, one in which every call is accepted. */
void film_case(dice *d, film_run *run, bool legal);

#endif
