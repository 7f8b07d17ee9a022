/* alter.h: a test of the tests. Lines and answers are altered on purpose, and each alteration must be noticed. */
#ifndef ALTER_H
#define ALTER_H

#include "parse.h"

/* Alters a line that is known to pass in every way that it allows, and counts. The line is left as it was. */
void alter_line(const char *line, const vector_line *right);

/* Prints how many alterations of each sort were made and noticed. False where one was not noticed, or a sort never arose. */
bool alter_report(void);

#endif
