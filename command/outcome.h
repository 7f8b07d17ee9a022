/* How a call of the command ends. Parts of the command answer it, and say.c alone turns it into words. */
#ifndef OUTCOME_H
#define OUTCOME_H

#include "captions.h"

/* The status of the process. */
enum status { STATUS_ACCEPTED = 0, STATUS_REFUSED = 1, STATUS_MISUSED = 2, STATUS_FAILED = 3 };

typedef struct outcome {
    enum status status;
    captions_refusal refusal; /* refused: the library's number and place */
    const char *words;        /* misused: what is wrong with the use */
    const char *word;         /* misused: the word that it is about, or null */
    int error;                /* failed: the error number of C */
    const char *name;         /* whose fault it is: a file as it was given; null where it is no file's */
    size_t line;              /* the line of a text, from 1; 0 where it is no line's */
    bool in_payload;          /* refused: whether it is one of several payloads, and which, from 0 */
    size_t payload;
} outcome;

static inline outcome accepted(void)
{
    return (outcome){ .status = STATUS_ACCEPTED };
}

static inline outcome refused(captions_refusal refusal, const char *name)
{
    return (outcome){ .status = STATUS_REFUSED, .refusal = refusal, .name = name };
}

static inline outcome misused(const char *words, const char *word)
{
    return (outcome){ .status = STATUS_MISUSED, .words = words, .word = word };
}

/* A fault of a text: its lines are counted from 1. */
static inline outcome misread(const char *words, const char *name, size_t line)
{
    return (outcome){ .status = STATUS_MISUSED, .words = words, .name = name, .line = line };
}

static inline outcome failed(int error, const char *name)
{
    return (outcome){ .status = STATUS_FAILED, .error = error, .name = name };
}

static inline bool is_accepted(outcome o)
{
    return o.status == STATUS_ACCEPTED;
}

static inline bool is_refusal(captions_refusal refusal)
{
    return refusal.number != CAPTIONS_ACCEPTED;
}

#endif
