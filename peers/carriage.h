/* Areas of one carriage, as the library writes them: random legal ones, and one for each thing that a peer is watched at. */
#ifndef CARRIAGE_H
#define CARRIAGE_H

#include "captions.h"
#include "stream.h"

enum { MAX_AREA = 20000, MAX_RECORDS = 31 };

struct area {
    size_t len;
    uint8_t data[MAX_AREA];
};

/* What a peer should hand on: for each record a byte with cc_valid (4) and cc_type, then the two data bytes. */
struct triples {
    size_t n;
    uint8_t of[MAX_RECORDS][3];
};

/* One area by name, for the table of observations. */
struct area_case {
    int number;       /* the refusal that RULES gives; 0 for a legal area */
    const char *what; /* what is wrong or special */
    void (*make)(struct area *);
};

struct carriage {
    const char *name;

    /* An area for picture p with random records: a unit alone, or one put in another's place with a foreign unit behind. */
    void (*random)(struct area *, struct triples *, const struct picture *p, bool replace);

    /* A unit with one pair of the first field. */
    void (*one_pair)(struct area *, struct triples *, const struct picture *p, uint8_t data_1, uint8_t data_2);

    /* The area with a unit of one pair put into it by the library's replacement. */
    void (*put_pair)(struct area *, uint8_t data_1, uint8_t data_2);

    /* A unit with one pair and a number that is carried: its name, how many values it has, and the unit. */
    const char *carried;
    uint32_t carried_values;
    void (*with_carried)(struct area *, uint32_t value);

    /* A unit with one construct whose cc_count says 31. */
    void (*count_31)(struct area *);

    /* What the library's reader says of an area: the refusal's number, and the number of records, -1 for no unit. */
    int (*read)(const struct area *, int *records);

    const struct area_case *cases;
    size_t case_count;
};

extern const struct carriage scte20, ga94;

/* A number below `limit`, the same run after run. */
uint32_t random_below(uint32_t limit);

void append(struct area *a, const void *data, size_t len);
#define APPEND(a, text) append(a, text, sizeof(text) - 1)

/* Appends a foreign unit that tells AFD 8. */
void append_afd(struct area *a);

/* Appends a foreign unit with a data group of another syntax: 03, the type, 95 20. */
void append_group(struct area *a, uint8_t type);

/* Leaves the program where the library refused a legal value. */
void must(captions_written w);

/* Leaves the program where the library did anything but refuse with that number. */
void must_refuse(captions_written w, uint8_t number);

#endif
