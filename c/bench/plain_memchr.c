/* plain_memchr.c: reading an area with the C library's memchr as the search; see plain.h. */
#include "plain_area.h"

/* The 01 is looked for, since zeros come in runs. */
static size_t next_start(const uint8_t *s, size_t from, size_t len)
{
    size_t i = from + 2;
    while (i < len) {
        const uint8_t *one = memchr(s + i, 1, len - i);
        if (one == NULL) {
            return len;
        }
        if (one[-1] == 0 && one[-2] == 0) {
            return (size_t)(one - s) - 2;
        }
        i = (size_t)(one - s) + 3;
    }
    return len;
}

captions_unit plain_area_read_memchr(const uint8_t *area, size_t len, captions_record records[static CAPTIONS_RECORDS])
{
    return plain_read_found(area, find_unit(area, len, next_start, is_caption), records);
}
