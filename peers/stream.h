/* MPEG-2 video streams cut into pictures, and areas put behind their headers. */
#ifndef STREAM_H
#define STREAM_H

#include <stdbool.h>
#include <stddef.h>
#include <stdint.h>

enum { MAX_PICTURES = 2048 };

/* One coded picture, with the sequence and group headers before it. */
struct picture {
    size_t start;         /* first byte */
    size_t header;        /* first byte of its picture header */
    size_t slice;         /* first byte of its first slice: an area goes in front of it */
    size_t end;           /* behind its last byte */
    int structure;        /* 1 top field, 2 bottom field, 3 frame */
    bool top_field_first; /* as its coding extension says */
};

struct stream {
    uint8_t *data;
    size_t len;
    size_t n;
    struct picture pictures[MAX_PICTURES];
};

/* Bytes that a caller frees. */
struct bytes {
    uint8_t *data;
    size_t len;
};

/* Reads a file and finds its pictures. Leaves the program where that fails. */
struct stream stream_load(const char *path);

/* The area of picture k: from its first user data to its first slice. Empty where it has none. */
const uint8_t *area_of_picture(const struct stream *s, size_t k, size_t *len);

/* Picture k of the stream with an area behind its headers. */
struct bytes picture_with_area(const struct stream *s, size_t k, const uint8_t *area, size_t len);

#endif
