/* The lines of a listing, as text or as JSON: both from the same items, so that neither can leave one out. */
#ifndef ROWS_H
#define ROWS_H

#include "bytes.h"
#include "captions.h"

/* How an item is written. In JSON a number is decimal and a run of bytes is a string of hex digits. */
enum form {
    DECIMAL,
    HEX,   /* two digits */
    RUN,   /* bytes in hex */
    DASH,  /* a dash in text, nothing in JSON */
    QUIET, /* a number that stands in JSON alone */
    TRUTH  /* true or false, in JSON alone */
};

typedef struct item {
    const char *key;
    enum form form;
    uint64_t value;
    const uint8_t *run;
} item;

/* One value behind the other. An empty run has no space before it. */
void put_row(bytes *out, bool is_json, const item *items, size_t n);

/* The same with the name of each before it. In text, nothing where no item stands there. */
void put_head(bytes *out, bool is_json, const item *items, size_t n);

/* A line of text that names the parts of those below; JSON has the names in each line. */
void put_title(bytes *out, bool is_json, const char *title);

/* An array of items and their number. */
#define ITEMS(...) (const item[]){ __VA_ARGS__ }, sizeof((const item[]){ __VA_ARGS__ }) / sizeof(item)

/* The title of access units, and the line of one. Three verbs list them, and one reads them back. */
extern const char access_unit_title[];
void put_access_unit(bytes *out, bool is_json, const captions_access_unit *unit);

#endif
