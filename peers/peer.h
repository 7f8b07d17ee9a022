/* What each reader of MPEG-2 video that others wrote is asked, and what it answers. */
#ifndef PEER_H
#define PEER_H

#include <stdarg.h>

#include "stream.h"

enum { MAX_TRIPLES = 256, MAX_NOTES = 8, NOTE_BYTES = 120 };

/*
 * What a peer handed on with one coded picture. A triple is a byte with cc_valid (4) and cc_type (0 field 1, 1 field 2),
 * then two data bytes.
 */
struct answer {
    bool frame;        /* whether a picture came out at all */
    bool captions;     /* whether captions came with it */
    size_t n;          /* how many triples */
    uint8_t triples[MAX_TRIPLES][3];
    int afd;           /* the active format description that came with it; -1 for none */
};

/* What a peer said in its log, each message once. */
struct notes {
    size_t n;
    char texts[MAX_NOTES][NOTE_BYTES];
};

/* Adds a message, cut at the end of its first line. Nothing happens where there are no notes to add to. */
void note(struct notes *notes, const char *format, va_list args);

/* Whether the peer hands on the captions of SCTE 20, so that a difference is a failure. */
extern const bool peer_reads_scte20;

/* Whether the peer tells the active format description, so that a foreign unit can be seen to pass. */
extern const bool peer_tells_afd;

/* The name and version of the peer. The first call readies it, before peer_read. */
const char *peer_name(void);

/*
 * Gives the pictures of a stream to the peer, in coded order, and takes what it hands on with each.
 * second[k] says that picture k is the second field of the frame that began with picture k - 1; the answer is then that of k - 1.
 */
void peer_read(const struct bytes *pictures, const bool *second, size_t n, struct answer *answers, struct notes *notes);

#endif
