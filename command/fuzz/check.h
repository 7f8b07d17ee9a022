/* What the fuzz targets share: a check that stops the run, and the entry point. */
#ifndef CHECK_H
#define CHECK_H

#include <stddef.h>
#include <stdint.h>
#include <stdlib.h>

/* Not assert, which a build can leave out. */
#define CHECK(what) ((what) ? (void)0 : abort())

int LLVMFuzzerTestOneInput(const uint8_t *data, size_t len);

#endif
