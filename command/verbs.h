/* The verbs of the command. */
#ifndef VERBS_H
#define VERBS_H

#include "bytes.h"
#include "options.h"

typedef struct verb {
    const char *name;
    unsigned takes;      /* which options */
    bool is_words;       /* whether its input is the words of a packet */
    const char *measure; /* in what the places of its refusals are counted; null: all are 0 */
    outcome (*run)(const options *o, bytes *out);
    const char *summary; /* what it does, in a line */
    const char *about;   /* and in some */
    const char *example; /* a shell command and what it prints */
} verb;

/* All of them; the last has no name. */
extern const verb verbs[];

outcome list_area(const options *o, bytes *out);
outcome list_ga94(const options *o, bytes *out);
outcome list_packet(const options *o, bytes *out);
outcome list_multi(const options *o, bytes *out);
outcome list_payload(const options *o, bytes *out);
outcome list_pes(const options *o, bytes *out);
outcome list_reel(const options *o, bytes *out);
outcome replace_unit(const options *o, bytes *out);
outcome replace_ga94(const options *o, bytes *out);
outcome convert_to_pes(const options *o, bytes *out);
outcome carry_film(const options *o, bytes *out);
outcome make_reel(const options *o, bytes *out);

#endif
