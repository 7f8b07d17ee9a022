/* convert_notes.h: what a run of random.c met of conversions of packets into data fields. A part of pes_notes.h. */
#ifndef CONVERT_NOTES_H
#define CONVERT_NOTES_H

#include "harness.h"
#include "tell.h"

enum { LINES = 32 };

/* One conversion, by the model's outcome. */
void note_conversion(const question *q, const outcome *by_model);

/* Calls `with` for each count. */
void tell_conversions(teller with);

/* In pes_notes.c: the least count of the legal lines, in both fields; and which lines a data field may have. */
void tell_lines(teller with, const char *name, unsigned long counts[2][LINES]);
bool is_legal_line(unsigned line);

#endif
