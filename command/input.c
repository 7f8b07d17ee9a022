#include "input.h"

#include "files.h"
#include "text.h"

#include <errno.h>
#include <stdlib.h>

static outcome take_text(const options *o, bytes *in)
{
    int error = read_file(o->file, in);
    return error == 0 ? accepted() : failed(error, input_name(o));
}

/* Turns a text into what it writes. */
static outcome from_hex(const options *o, bytes *in, fault (*put_text_of)(bytes *to, part text))
{
    bytes meant = { 0 };
    fault wrong = put_text_of(&meant, (part){ in->at, in->len });
    bool is_short = meant.is_short;
    release(in);
    *in = meant;
    if (is_short)
        return failed(ENOMEM, input_name(o));
    return wrong.words == NULL ? accepted() : misread(wrong.words, input_name(o), wrong.line);
}

outcome take_bytes(const options *o, bytes *in)
{
    outcome read = take_text(o, in);
    if (!is_accepted(read) || o->from != FORMAT_HEX)
        return read;
    return from_hex(o, in, put_hex_text);
}

/* Puts the two bytes of each word in the order that this machine has. */
static void order(uint8_t *at, size_t words, enum format format)
{
    for (size_t i = 0; i < words; i++) {
        uint8_t first = at[2 * i];
        uint8_t second = at[2 * i + 1];
        uint16_t word = (uint16_t)(format == FORMAT_BIG ? first << 8 | second : second << 8 | first);
        ((uint16_t *)(void *)at)[i] = word;
    }
}

static outcome take_words(const options *o, words *in)
{
    bytes read = { 0 };
    outcome taken = take_text(o, &read);
    if (is_accepted(taken) && o->from == FORMAT_HEX)
        taken = from_hex(o, &read, put_hex_words);
    if (!is_accepted(taken)) {
        release(&read);
        return taken;
    }
    /* Memory of malloc is aligned for a word. */
    *in = (words){ (uint16_t *)(void *)read.at, read.len / 2, read.len % 2 != 0 };
    if (o->from != FORMAT_HEX)
        order(read.at, in->len, o->from);
    return accepted();
}

/* An outcome of taking, and if that went well of using. */
static outcome used(outcome taken, const options *o, use_bytes *use, bytes *in, bytes *out)
{
    if (is_accepted(taken))
        taken = use(o, in, out);
    release(in);
    return taken;
}

outcome with_text(const options *o, use_bytes *use, bytes *out)
{
    bytes in = { 0 };
    return used(take_text(o, &in), o, use, &in, out);
}

outcome with_bytes(const options *o, use_bytes *use, bytes *out)
{
    bytes in = { 0 };
    return used(take_bytes(o, &in), o, use, &in, out);
}

outcome with_words(const options *o, use_words *use, bytes *out)
{
    words in = { 0 };
    outcome taken = take_words(o, &in);
    if (is_accepted(taken))
        taken = use(o, &in, out);
    free(in.at);
    return taken;
}

captions_refusal with_half(const words *in, captions_refusal refusal)
{
    if (!in->has_half || refusal.number == CAPTIONS_TOO_LONG)
        return refusal;
    return (captions_refusal){ .number = CAPTIONS_ENDS, .place = in->len };
}

void put_output(const options *o, bytes *out, const uint8_t *from, size_t len)
{
    if (o->to != FORMAT_HEX) {
        put(out, from, len);
        return;
    }
    put_hex_run(out, from, len);
    put_text(out, "\n");
}
