/* The plain files between the programs that call the library and those that ask the peers: lines of words, bytes in hex. */
#ifndef LINES_H
#define LINES_H

#include <stdbool.h>
#include <stddef.h>
#include <stdint.h>
#include <stdio.h>

#include "stream.h"

/* Prints bytes; - for none. */
void print_bytes(const uint8_t *bytes, size_t len);

/* The next line, without its end. Null at the end of the file. It stays until the next call. */
const char *next_line(FILE *file);

/* Whether a line begins with the word. If so, `rest` is what stands behind it. */
bool begins(const char *line, const char *word, const char **rest);

/* The number, or the bytes, at `text`, which is moved behind them. They leave the program where there are none. */
int take_number(const char **text);
struct bytes take_bytes(const char **text);

#endif
