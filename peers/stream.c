#include "stream.h"

#include <stdio.h>
#include <stdlib.h>
#include <string.h>

static void fail(const char *path, const char *why)
{
    fprintf(stderr, "%s: %s\n", path, why);
    exit(2);
}

/* The next 00 00 01 from `at` on with a byte behind it; the length where there is none. */
static size_t next_code(const uint8_t *d, size_t len, size_t at)
{
    for (; at + 3 < len; at++)
        if (d[at] == 0 && d[at + 1] == 0 && d[at + 2] == 1)
            return at;
    return len;
}

/* What the picture coding extension at `at` tells. */
static void coding_extension(struct picture *p, const uint8_t *d)
{
    p->structure = d[6] & 3;
    p->top_field_first = d[7] >> 7;
}

static void find_pictures(struct stream *s, const char *path)
{
    size_t start = 0;
    bool open = false, sliced = true; /* a picture is under way; its first slice has passed */
    for (size_t at = next_code(s->data, s->len, 0); at < s->len; at = next_code(s->data, s->len, at + 3)) {
        uint8_t code = s->data[at + 3];
        bool heads = code == 0xB3 || code == 0xB8 || code == 0x00 || code == 0xB7;
        if (heads && sliced) {
            if (open)
                s->pictures[s->n - 1].end = at;
            open = false;
            sliced = false;
            start = at;
        }
        if (code == 0x00) {
            if (s->n == MAX_PICTURES)
                fail(path, "more pictures than expected");
            s->pictures[s->n++] = (struct picture){ .start = start, .header = at, .end = s->len };
            open = true;
        } else if (code == 0xB5 && open && s->data[at + 4] >> 4 == 8) {
            coding_extension(&s->pictures[s->n - 1], s->data + at);
        } else if (code >= 0x01 && code <= 0xAF && !sliced) {
            s->pictures[s->n - 1].slice = at;
            sliced = true;
        }
    }
}

struct stream stream_load(const char *path)
{
    struct stream s = { 0 };
    FILE *f = fopen(path, "rb");
    if (!f || fseek(f, 0, SEEK_END) != 0)
        fail(path, "cannot be read");
    s.len = (size_t)ftell(f);
    rewind(f);
    s.data = malloc(s.len + 1);
    if (!s.data || fread(s.data, 1, s.len, f) != s.len)
        fail(path, "cannot be read");
    fclose(f);
    find_pictures(&s, path);
    if (s.n == 0)
        fail(path, "has no pictures");
    return s;
}

const uint8_t *area_of_picture(const struct stream *s, size_t k, size_t *len)
{
    const struct picture *p = &s->pictures[k];
    size_t at = p->header;
    while (at < p->slice && s->data[at + 3] != 0xB2)
        at = next_code(s->data, s->len, at + 3);
    *len = p->slice - at;
    return s->data + at;
}

struct bytes picture_with_area(const struct stream *s, size_t k, const uint8_t *area, size_t len)
{
    const struct picture *p = &s->pictures[k];
    size_t head = p->slice - p->start, tail = p->end - p->slice;
    struct bytes b = { malloc(head + len + tail), head + len + tail };
    if (!b.data)
        exit(2);
    memcpy(b.data, s->data + p->start, head);
    memcpy(b.data + head, area, len);
    memcpy(b.data + head + len, s->data + p->slice, tail);
    return b;
}
