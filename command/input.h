/* The input of a verb, in the form that the library takes. */
#ifndef INPUT_H
#define INPUT_H

#include "bytes.h"
#include "options.h"

/* The words of a packet, and whether half a word stands behind the last whole one. */
typedef struct words {
    uint16_t *at;
    size_t len;
    bool has_half;
} words;

/* What a verb does with its input. */
typedef outcome use_bytes(const options *o, const bytes *in, bytes *out);
typedef outcome use_words(const options *o, const words *in, bytes *out);

/* The bytes of the input, from a text where it is one. Whoever has them frees them, also where this fails. */
outcome take_bytes(const options *o, bytes *in);

/* Reads the input and hands it to a verb: as it is, a text; as bytes, from a text where it is one; as words. */
outcome with_text(const options *o, use_bytes *use, bytes *out);
outcome with_bytes(const options *o, use_bytes *use, bytes *out);
outcome with_words(const options *o, use_words *use, bytes *out);

/*
 * The refusal of words that were read, with half a word in mind: the input is over before that word is complete. Input
 * that is too long is refused for its length alone.
 */
captions_refusal with_half(const words *in, captions_refusal refusal);

/* Adds bytes to the output in the form that was asked for. */
void put_output(const options *o, bytes *out, const uint8_t *from, size_t len);

#endif
