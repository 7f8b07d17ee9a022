/* plain_reversed.h: the table of bytes with their bits in the other order, which SCTE 20 and the data field share. */
#ifndef PLAIN_REVERSED_H
#define PLAIN_REVERSED_H

#include <stdint.h>

#define REVERSED2(n) (n), (n) + 2 * 64, (n) + 1 * 64, (n) + 3 * 64
#define REVERSED4(n) REVERSED2(n), REVERSED2((n) + 2 * 16), REVERSED2((n) + 1 * 16), REVERSED2((n) + 3 * 16)
#define REVERSED6(n) REVERSED4(n), REVERSED4((n) + 2 * 4), REVERSED4((n) + 1 * 4), REVERSED4((n) + 3 * 4)

static const uint8_t reversed[256] = {REVERSED6(0), REVERSED6(2), REVERSED6(1), REVERSED6(3)};

#endif
