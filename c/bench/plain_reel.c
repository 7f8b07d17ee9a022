/* plain_reel.c: a reel of payloads; see plain.h. Sections named in comments are those of docs/RULES.md. */
#include "plain.h"

#include <string.h>

enum {
    UNIT_BYTES = 5,
    DATA = offsetof(captions_access_unit, field1_data1) /* the four data bytes stand in one order in both */
};

/* How many units the payload has that begins with unit `at`. */
static size_t units_of(size_t n, size_t size, size_t at)
{
    return n - at < size ? n - at : size;
}

/* Whether each number has room in its bits. All these refusals have one number, so one test is enough. */
static bool can_hold(const captions_access_unit *units, size_t m)
{
    uint8_t valid = 0;
    uint8_t padding = 0;
    for (size_t i = 0; i < m; i++) {
        valid |= units[i].cc_valid_1 | units[i].cc_valid_2;
        padding |= units[i].padding;
    }
    return valid <= 1 && padding <= 63;
}

captions_written plain_reel_write(uint32_t flags, size_t size, const captions_access_unit *units, size_t n, uint8_t *out,
                                  size_t room)
{
    captions_written refused = {.refusal = {CAPTIONS_UNHOLDABLE, 0}};
    if (flags > 255 || size < 1 || size > CAPTIONS_ACCESS_UNITS) {
        return refused;
    }
    /* Every payload is judged before the first byte is stored. */
    size_t len = 0;
    for (size_t at = 0; at < n; at += size) {
        size_t m = units_of(n, size, at);
        if (!can_hold(units + at, m)) {
            return refused;
        }
        if (1 + UNIT_BYTES * m > room - len) {
            refused.refusal.number = CAPTIONS_NO_ROOM;
            return refused;
        }
        len += 1 + UNIT_BYTES * m;
    }
    for (size_t at = 0; at < n; at += size) {
        size_t m = units_of(n, size, at);
        *out++ = (uint8_t)flags;
        for (size_t i = at; i < at + m; i++, out += UNIT_BYTES) {
            out[0] = (uint8_t)(units[i].cc_valid_1 << 7 | units[i].cc_valid_2 << 6 | units[i].padding);
            memcpy(out + 1, (const uint8_t *)&units[i] + DATA, 4);
        }
    }
    return (captions_written){.len = len};
}

/* The struct is seven bytes and nothing else, as captions.h asserts, so that the bytes can be looked at as structs. */
captions_written plain_reel_write_bytes(uint32_t flags, size_t size, const uint8_t *units, size_t len, uint8_t *out,
                                        size_t room)
{
    if (len % sizeof(captions_access_unit) != 0) {
        return (captions_written){.refusal = {CAPTIONS_UNHOLDABLE, 0}};
    }
    return plain_reel_write(flags, size, (const captions_access_unit *)units, len / sizeof(captions_access_unit), out, room);
}
