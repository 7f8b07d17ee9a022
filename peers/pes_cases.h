/* The data fields that libzvbi is watched at, legal ones and one for each defect. */
#ifndef PES_CASES_H
#define PES_CASES_H

#include "captions.h"
#include "pes.h"

struct pes_case {
    int number;       /* the refusal that RULES gives; 0 for a legal data field */
    size_t place;     /* and its place */
    const char *what; /* what is wrong or special */
    void (*make)(struct field *, const struct pes_case *, size_t variant);
    size_t variants;  /* how many data fields are alike in this; 0 stands for one */
    size_t at;        /* for what differs in one byte: where, */
    uint8_t byte;     /* and which it is */
};

extern const struct pes_case pes_cases[];
extern const size_t pes_case_count;

/* The data field that the library writes. It leaves the program where that is refused. */
struct field write_field(uint32_t data_identifier, size_t n, const captions_data_unit *units);

/* A stuffing unit of 44 such bytes. */
captions_data_unit stuffing(uint8_t byte);

#endif
