/* PES packets with a data field: pes.h says what for. */
#include "pes.h"

#include <string.h>

void pes_header(uint8_t header[PES_HEADER], size_t len, uint64_t pts)
{
    size_t length = PES_HEADER - 6 + len;
    uint8_t front[] = { 0, 0, 1, 0xBD, (uint8_t)(length >> 8), (uint8_t)length, 0x84, 0x80, PES_HEADER - 9 };
    uint8_t time[] = { (uint8_t)(0x21 | (pts >> 29 & 0x0E)), (uint8_t)(pts >> 22), (uint8_t)(pts >> 14 | 1), (uint8_t)(pts >> 7),
                       (uint8_t)(pts << 1 | 1) };
    memset(header, 0xFF, PES_HEADER);
    memcpy(header, front, sizeof front);
    memcpy(header + sizeof front, time, sizeof time);
}

uint32_t random_below(uint32_t limit)
{
    static uint64_t state = 0xD1B54A32D192ED03;
    state ^= state << 13;
    state ^= state >> 7;
    state ^= state << 17;
    return (uint32_t)(state >> 32) % limit;
}

void random_bytes(uint8_t *bytes, size_t len)
{
    for (size_t i = 0; i < len; i++)
        bytes[i] = (uint8_t)random_below(256);
}

uint8_t rising_line(uint8_t *next)
{
    uint32_t line = *next + random_below(3);
    if (line > 22 || random_below(4) == 0)
        return 0;
    *next = (uint8_t)(line + 1);
    return (uint8_t)line;
}
