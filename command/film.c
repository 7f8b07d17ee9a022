#include "film.h"

#include "input.h"
#include "rows.h"
#include "verbs.h"

#include <errno.h>

/* A run as it goes: the state that the library keeps from call to call, and where the text stands. */
typedef struct run {
    captions_film film;
    captions_access_unit units[CAPTIONS_FILM_UNITS];
    size_t line;
    bool has_begun; /* a line was read that is not empty */
} run;

static const char no_picture[] = "a line is TOP_FIELD_FIRST REPEAT_FIRST_FIELD LINE_OFFSET and the area in hex, or "
                                 "`close`; the first may be `waiting`";

/* What a line answers: access units of the run, or why there are none. */
typedef struct answer {
    outcome outcome;
    size_t m;
} answer;

/* A line that tells no call. */
static answer misread_line(const char *words)
{
    return (answer){ .outcome = misused(words, NULL) };
}

static answer answered(captions_refusal refusal, size_t m)
{
    return (answer){ .outcome = is_refusal(refusal) ? refused(refusal, NULL) : accepted(), .m = m };
}

/* The area of a picture in hex; a dash, or nothing, is one of no bytes. */
static outcome take_area(part text, bytes *area)
{
    part rest = text;
    part word;
    if (next_word(&rest, &word) && is_text(word, "-") && is_blank(rest))
        return accepted();
    fault wrong = put_hex_text(area, text);
    if (area->is_short)
        return failed(ENOMEM, NULL);
    return wrong.words == NULL ? accepted() : misused(wrong.words, NULL);
}

/* Reads the caption unit of a picture's area, and carries it. A picture without one has no records. */
static answer carry_area(run *r, uint32_t top_field_first, uint32_t repeat_first_field, uint32_t line_offset,
                         const bytes *area)
{
    captions_record records[CAPTIONS_RECORDS];
    captions_unit unit = captions_area_read(area->at, area->len, records);
    if (is_refusal(unit.refusal))
        return answered(unit.refusal, 0);
    captions_film_sent sent =
        captions_film_picture(&r->film, top_field_first, repeat_first_field, line_offset, unit.reserved,
                              unit.vbi_data_flag, unit.n, unit.z, records, r->units);
    return answered(sent.refusal, sent.m);
}

static answer carry_picture(run *r, part words)
{
    uint32_t top_field_first;
    uint32_t repeat_first_field;
    uint32_t line_offset;
    if (!next_decimal_32(&words, &top_field_first) || !next_decimal_32(&words, &repeat_first_field) ||
        !next_decimal_32(&words, &line_offset))
        return misread_line(no_picture);
    bytes area = { 0 };
    answer got = { .outcome = take_area(words, &area) };
    if (is_accepted(got.outcome))
        got = carry_area(r, top_field_first, repeat_first_field, line_offset, &area);
    release(&area);
    return got;
}

static answer close_run(run *r, part words)
{
    if (!is_blank(words))
        return misread_line("`close` stands alone in its line");
    captions_film_sent sent = captions_film_close(&r->film, r->units);
    return answered(sent.refusal, sent.m);
}

/* The slot that waited at the end of another run. The library judges it by a closing, which is made on a copy. */
static answer go_on(run *r, part words)
{
    captions_film film = { .waiting = 1 };
    if (r->has_begun)
        return misread_line("`waiting` stands in the first line alone");
    if (!next_decimal_8(&words, &film.cc_valid) || !next_hex_byte(&words, &film.cc_data_1) ||
        !next_hex_byte(&words, &film.cc_data_2) || !is_blank(words))
        return misread_line("a slot that waits is `waiting VALID DATA DATA`");
    captions_film closed = film;
    captions_film_sent sent = captions_film_close(&closed, r->units);
    if (!is_refusal(sent.refusal))
        r->film = film;
    return answered(sent.refusal, 0);
}

static answer next_call(run *r, part line)
{
    part word;
    part words = line;
    next_word(&words, &word);
    if (is_text(word, "close"))
        return close_run(r, words);
    if (is_text(word, "waiting"))
        return go_on(r, words);
    return carry_picture(r, line);
}

static void put_refusal(bytes *out, bool is_json, captions_refusal refusal, size_t line)
{
    if (is_json)
        put_row(out, true,
                ITEMS({ "refused", DECIMAL, refusal.number, NULL }, { "at", DECIMAL, refusal.place, NULL },
                      { "line", DECIMAL, line, NULL }));
    else
        put_head(out, false,
                 ITEMS({ "refused", DECIMAL, refusal.number, NULL }, { "at", DECIMAL, refusal.place, NULL }));
}

static void put_waiting(bytes *out, bool is_json, const captions_film *film)
{
    if (film->waiting == 0)
        return;
    if (!is_json)
        put_text(out, "waiting ");
    put_row(out, is_json,
            ITEMS({ "waiting", QUIET, 1, NULL }, { "cc_valid", DECIMAL, film->cc_valid, NULL },
                  { "cc_data_1", HEX, film->cc_data_1, NULL }, { "cc_data_2", HEX, film->cc_data_2, NULL }));
}

outcome run_film(const char *name, part text, bool is_each, bool is_json, bytes *out)
{
    run r = { 0 };
    outcome first = accepted();
    part line;
    put_title(out, is_json, access_unit_title);
    while (next_line(&text, &line)) {
        r.line++;
        if (is_blank(line))
            continue;
        answer got = next_call(&r, line);
        r.has_begun = true;
        if (!is_accepted(got.outcome)) {
            got.outcome.name = name;
            got.outcome.line = r.line;
            if (got.outcome.status != STATUS_REFUSED || !is_each)
                return got.outcome;
            put_refusal(out, is_json, got.outcome.refusal, r.line);
            if (is_accepted(first))
                first = got.outcome;
            continue;
        }
        for (size_t i = 0; i < got.m; i++)
            put_access_unit(out, is_json, &r.units[i]);
    }
    put_waiting(out, is_json, &r.film);
    return first;
}

static outcome put_film(const options *o, const bytes *in, bytes *out)
{
    return run_film(input_name(o), (part){ in->at, in->len }, o->is_each, o->is_json, out);
}

outcome carry_film(const options *o, bytes *out)
{
    return with_text(o, put_film, out);
}
