/* multi_faults.h: what can be wrong in a multipacket and in its value: each fault made, and each found. */
#ifndef MULTI_FAULTS_H
#define MULTI_FAULTS_H

#include "generate.h"

/*
 * Of an inner packet, in the order of checks. The USER ones are of a subtitling packet's user words, as they are read and as
 * they are written.
 */
typedef enum inner_fault {
    INNER_CUT,     /* its header is not all there */
    INNER_OVERRUN, /* by NDC it goes beyond the user words */
    INNER_WORD,
    INNER_NCS_FORM,
    INNER_BITS, /* b6 or b7 of LINE/FIELD */
    USER_SHORT,
    USER_IDENTIFIER,
    USER_LENGTH,
    USER_FORMAT,
    USER_LINE,
    USER_COUNT,
    USER_RUN_IN,
    USER_FOOTER,
    USER_SUM,
    INNER_NCS,
    INNER_FAULTS
} inner_fault;

/* Of what stands around the inner packets. */
typedef enum outer_fault {
    OUTER_LONG,
    OUTER_SHORT,
    OUTER_FLAG,
    OUTER_WORD,
    OUTER_CS_FORM,
    OUTER_ID,
    OUTER_DC,
    OUTER_NONE,
    OUTER_INNER, /* in some inner packet */
    OUTER_CS,
    OUTER_FAULTS
} outer_fault;

extern const char *const inner_fault_names[INNER_FAULTS];
extern const char *const outer_fault_names[OUTER_FAULTS];

bool is_user_fault(inner_fault fault);
bool is_subtitling(const captions_inner *inner);

/* Makes one of the USER faults in legal user words, of which there is room for one more. The SDP checksum is mended. */
void spoil_user(dice *d, inner_fault fault, uint16_t *user, uint16_t *count);

/* A word of a byte made wrong: b8 or b9, or a bit above them. */
uint16_t wrong_word(dice *d, uint16_t word);

/* Each USER fault of these words, whatever the others are, as far as it can be told beside the others. */
void find_user_faults(const uint16_t *user, size_t count, bool found[INNER_FAULTS]);

/* Each fault of the inner packet at word `at`, and where the next one begins; words[end] is CS, and its word is there. */
size_t find_inner_faults(const uint16_t *words, size_t at, size_t end, bool found[INNER_FAULTS]);

/* Each fault of a multipacket of any length but OUTER_INNER. */
void find_outer_faults(const uint16_t *words, size_t len, bool found[OUTER_FAULTS]);

/* Whether one input can have both, and both be told: the first one decides. */
bool can_be_in_one(inner_fault first, inner_fault later);

#endif
