/* The words of a call: verb, options and file. */
#ifndef OPTIONS_H
#define OPTIONS_H

#include "outcome.h"

/* The options that a verb takes, as a set. --output and --help are taken by every one. */
enum {
    TAKES_FROM = 1,
    TAKES_TO = 2,
    TAKES_JSON = 4,
    TAKES_UNIT = 8,
    TAKES_VALUE = 16,
    TAKES_FLAGS = 32,
    TAKES_SIZE = 64,
    TAKES_EACH = 128
};

/* How bytes or words are written. */
enum format { FORMAT_BYTES, FORMAT_HEX, FORMAT_BIG, FORMAT_LITTLE };

typedef struct options {
    const struct verb *verb;
    const char *file; /* null: standard input */
    const char *output;
    const char *unit;
    const char *unit_file;
    enum format from;
    enum format to;
    uint32_t flags;
    bool has_flags;
    size_t size;
    bool is_json;
    bool is_value;
    bool is_each;
    bool is_help;
    bool is_version;
} options;

/* Reads the words behind the command's name. If they are no call, the outcome says why. */
outcome options_of(int count, char *const *words, options *o);

/* Whether a file is standard input: it is none, or `-`. */
bool is_standard_input(const char *file);

/* What messages call a file, and the input. */
const char *name_of(const char *file);
const char *input_name(const options *o);

#endif
