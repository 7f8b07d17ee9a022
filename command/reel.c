#include "reel.h"

#include "input.h"
#include "rows.h"
#include "verbs.h"

#include <errno.h>

/* The line of a unit. */
static bool unit_in(part line, captions_access_unit *unit)
{
    return next_decimal_8(&line, &unit->cc_valid_1) && next_decimal_8(&line, &unit->cc_valid_2) &&
           next_decimal_8(&line, &unit->padding) && next_hex_byte(&line, &unit->field1_data1) &&
           next_hex_byte(&line, &unit->field1_data2) && next_hex_byte(&line, &unit->field2_data1) &&
           next_hex_byte(&line, &unit->field2_data2) && is_blank(line);
}

/* Whether two texts have the same words. */
static bool are_same_words(part a, part b)
{
    part x;
    part y;
    bool is_more;
    do {
        is_more = next_word(&a, &x);
        if (next_word(&b, &y) != is_more || x.len != y.len)
            return false;
        for (size_t i = 0; i < x.len; i++)
            if (x.at[i] != y.at[i])
                return false;
    } while (is_more);
    return true;
}

/* What is wrong with a line, or null. */
static const char *take_line(part line, told_run *told)
{
    captions_access_unit unit;
    uint8_t flags;
    part word;
    part words = line;
    next_word(&words, &word);
    if (word.len == 0 || are_same_words(line, part_of(access_unit_title)))
        return NULL;
    if (is_text(word, "waiting"))
        return "a slot waits still: the run of film is to be closed first";
    if (is_text(word, "flags")) {
        if (!next_hex_byte(&words, &flags) || !is_blank(words))
            return "flags are told by two hex digits";
        if (told->has_flags && told->flags != flags)
            return "a reel has one flags byte, and this is another";
        told->has_flags = true;
        told->flags = flags;
        return NULL;
    }
    if (!unit_in(line, &unit))
        return "an access unit is VALID_1 VALID_2 PADDING, and four bytes in hex";
    put(&told->units, &unit, sizeof unit);
    return NULL;
}

outcome read_run(const char *name, part text, told_run *told)
{
    part line;
    size_t number = 0;
    *told = (told_run){ 0 };
    /* A run of film that is refused prints nothing: then no reel is made of it behind a pipe. */
    if (is_blank(text))
        return misread("there is no line; a run of no access units is the line that names their parts", name, 1);
    while (next_line(&text, &line)) {
        number++;
        const char *wrong = take_line(line, told);
        if (wrong != NULL)
            return misread(wrong, name, number);
    }
    return told->units.is_short ? failed(ENOMEM, name) : accepted();
}

/* A payload has five bytes for each unit, and one more: it is never longer than the seven bytes of each that are lent.
 */
static outcome write_reel(const options *o, const told_run *told, bytes *out)
{
    if (o->has_flags && told->has_flags && o->flags != told->flags)
        return misused("the lines of the input tell another flags byte than --flags", NULL);
    bytes reel = { 0 };
    if (!reserve(&reel, told->units.len))
        return failed(ENOMEM, input_name(o));
    uint32_t flags = o->has_flags ? o->flags : told->has_flags ? told->flags : 0;
    captions_written written =
        captions_reel_write_bytes(flags, o->size, told->units.at, told->units.len, reel.at, reel.room);
    outcome answer = accepted();
    if (is_refusal(written.refusal))
        answer = refused(written.refusal, input_name(o));
    else
        put_output(o, out, reel.at, written.len);
    release(&reel);
    return answer;
}

static outcome put_run(const options *o, const bytes *in, bytes *out)
{
    told_run told;
    outcome taken = read_run(input_name(o), (part){ in->at, in->len }, &told);
    if (is_accepted(taken))
        taken = write_reel(o, &told, out);
    release(&told.units);
    return taken;
}

outcome make_reel(const options *o, bytes *out)
{
    return with_text(o, put_run, out);
}
