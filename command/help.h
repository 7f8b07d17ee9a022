/* What --help and --version print. */
#ifndef HELP_H
#define HELP_H

#include "verbs.h"

void put_usage(bytes *out);
void put_help(const verb *v, bytes *out);
void put_version(bytes *out);

#endif
