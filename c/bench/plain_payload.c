/* plain_payload.c: the line 21 payload; see plain.h. Sections named in comments are those of docs/RULES.md. */
#include "plain.h"

#include <string.h>

enum {
    UNIT_BYTES = 5,
    DATA = offsetof(captions_access_unit, field1_data1) /* the four data bytes stand in one order in both */
};

captions_payload plain_payload_read(const uint8_t *payload, size_t len,
                                    captions_access_unit units[static CAPTIONS_ACCESS_UNITS])
{
    if (len == 0) {
        return (captions_payload){.refusal = {CAPTIONS_NO_START, len}};
    }
    if (len > CAPTIONS_PAYLOAD_BYTES) {
        return (captions_payload){.refusal = {CAPTIONS_TOO_LONG, len}};
    }
    if ((len - 1) % UNIT_BYTES != 0) {
        return (captions_payload){.refusal = {CAPTIONS_LENGTH, len}};
    }
    captions_payload head = {.flags = payload[0], .m = (len - 1) / UNIT_BYTES};
    for (size_t i = 0; i < head.m; i++) {
        const uint8_t *s = payload + 1 + UNIT_BYTES * i;
        units[i].cc_valid_1 = s[0] >> 7;
        units[i].cc_valid_2 = s[0] >> 6 & 1;
        units[i].padding = s[0] & 63;
        memcpy((uint8_t *)&units[i] + DATA, s + 1, 4);
    }
    memset(units + head.m, 0, (CAPTIONS_ACCESS_UNITS - head.m) * sizeof units[0]);
    return head;
}

captions_written plain_payload_write(uint32_t flags, size_t m,
                                     const captions_access_unit units[static CAPTIONS_ACCESS_UNITS],
                                     uint8_t *out, size_t room)
{
    captions_written refused = {.refusal = {CAPTIONS_UNHOLDABLE, 0}};
    if (flags > 255 || m > CAPTIONS_ACCESS_UNITS) {
        return refused;
    }
    /* Every unit is judged before the first byte is stored. All these refusals have one number, so one test is enough. */
    uint8_t valid = 0;
    uint8_t padding = 0;
    for (size_t i = 0; i < m; i++) {
        valid |= units[i].cc_valid_1 | units[i].cc_valid_2;
        padding |= units[i].padding;
    }
    if (valid > 1 || padding > 63) {
        return refused;
    }
    size_t len = 1 + UNIT_BYTES * m;
    if (len > room) {
        refused.refusal.number = CAPTIONS_NO_ROOM;
        return refused;
    }
    out[0] = (uint8_t)flags;
    for (size_t i = 0; i < m; i++) {
        uint8_t *s = out + 1 + UNIT_BYTES * i;
        s[0] = (uint8_t)(units[i].cc_valid_1 << 7 | units[i].cc_valid_2 << 6 | units[i].padding);
        memcpy(s + 1, (const uint8_t *)&units[i] + DATA, 4);
    }
    return (captions_written){.len = len};
}
