/* The words of an ancillary packet: words.h says what for. */
#include "words.h"

#include <stdbool.h>

#include <bitstream/smpte/291.h>

enum { DC = 5 };

size_t user_bytes(const struct words *p, uint8_t *bytes)
{
    size_t n = p->w[DC] & 0xFF;
    for (size_t i = 0; i < n; i++)
        bytes[i] = p->w[FIRST_USER + i] & 0xFF;
    return n;
}

struct words bitstream_packet(uint8_t did, uint8_t sdid, const uint8_t *bytes, size_t n)
{
    struct words p = { .len = n + 7, .w = { S291_ADF1, S291_ADF2, S291_ADF3 } };
    s291_set_did(p.w, did);
    s291_set_sdid(p.w, sdid);
    s291_set_dc(p.w, (uint8_t)n);
    for (size_t i = 0; i < n; i++)
        p.w[FIRST_USER + i] = bytes[i] | s291_parity(bytes[i]);
    s291_set_cs(p.w);
    return p;
}
