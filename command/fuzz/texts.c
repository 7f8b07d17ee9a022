/*
 * Fuzz target: the texts that the command reads. The first byte says which; what is accepted is written again and read
 * back, and must be the same.
 */
#include "check.h"

#include "film.h"
#include "reel.h"
#include "rows.h"
#include "unit_words.h"

#include <string.h>

static bool are_equal(const bytes *a, const bytes *b)
{
    return a->len == b->len && (a->len == 0 || memcmp(a->at, b->at, a->len) == 0);
}

static part all_of(const bytes *b)
{
    return (part){ b->at, b->len };
}

static void try_hex(part text)
{
    bytes meant = { 0 };
    bytes written = { 0 };
    bytes again = { 0 };
    if (put_hex_text(&meant, text).words == NULL) {
        put_hex_run(&written, meant.at, meant.len);
        CHECK(put_hex_text(&again, all_of(&written)).words == NULL);
        CHECK(are_equal(&meant, &again));
    }
    release(&meant);
    release(&written);
    release(&again);
}

static void try_hex_words(part text)
{
    bytes meant = { 0 };
    bytes written = { 0 };
    bytes again = { 0 };
    if (put_hex_words(&meant, text).words == NULL) {
        CHECK(meant.len % 2 == 0);
        for (size_t i = 0; i < meant.len; i += 2) {
            uint16_t word;
            memcpy(&word, meant.at + i, sizeof word);
            put_hex(&written, (uint8_t)(word >> 8));
            put_hex(&written, (uint8_t)word);
        }
        CHECK(put_hex_words(&again, all_of(&written)).words == NULL);
        CHECK(are_equal(&meant, &again));
    }
    release(&meant);
    release(&written);
    release(&again);
}

/* Only as many constructs as have a place can be written again. */
static void try_unit(part text)
{
    told_unit told;
    told_unit again;
    bytes written = { 0 };
    if (unit_of(&text, &told) && told.n <= CAPTIONS_RECORDS) {
        put_row(&written, false,
                ITEMS({ "", DECIMAL, told.reserved, NULL }, { "", DECIMAL, told.vbi_data_flag, NULL },
                      { "", DECIMAL, told.z, NULL }));
        for (size_t i = 0; i < told.n; i++) {
            const captions_record *r = &told.records[i];
            put_row(&written, false,
                    ITEMS({ "", DECIMAL, r->cc_priority, NULL }, { "", DECIMAL, r->field_number, NULL },
                          { "", DECIMAL, r->line_offset, NULL }, { "", HEX, r->cc_data_1, NULL },
                          { "", HEX, r->cc_data_2, NULL }));
        }
        part words = all_of(&written);
        CHECK(unit_of(&words, &again));
        CHECK(told.reserved == again.reserved && told.vbi_data_flag == again.vbi_data_flag && told.z == again.z);
        CHECK(told.n == again.n && memcmp(told.records, again.records, sizeof told.records) == 0);
    }
    release(&written);
}

static void try_ga94(part text)
{
    told_ga94 told;
    told_ga94 again;
    bytes written = { 0 };
    if (ga94_of(&text, &told) && told.n <= CAPTIONS_RECORDS) {
        put_row(&written, false,
                ITEMS({ "", DECIMAL, told.process_em_data_flag, NULL },
                      { "", DECIMAL, told.process_cc_data_flag, NULL },
                      { "", DECIMAL, told.additional_data_flag, NULL }, { "", HEX, told.em_data, NULL },
                      { "", DECIMAL, told.z, NULL }));
        for (size_t i = 0; i < told.n; i++) {
            const captions_ga94_record *r = &told.records[i];
            put_row(&written, false,
                    ITEMS({ "", DECIMAL, r->cc_valid, NULL }, { "", DECIMAL, r->cc_type, NULL },
                          { "", HEX, r->cc_data_1, NULL }, { "", HEX, r->cc_data_2, NULL }));
        }
        part words = all_of(&written);
        CHECK(ga94_of(&words, &again));
        CHECK(told.process_em_data_flag == again.process_em_data_flag && told.em_data == again.em_data);
        CHECK(told.process_cc_data_flag == again.process_cc_data_flag && told.z == again.z);
        CHECK(told.additional_data_flag == again.additional_data_flag);
        CHECK(told.n == again.n && memcmp(told.records, again.records, sizeof told.records) == 0);
    }
    release(&written);
}

/* Both ways to answer a run agree on whether it is accepted, and then print the same. */
static void try_film(part text)
{
    bytes whole = { 0 };
    bytes each = { 0 };
    bytes json = { 0 };
    outcome one = run_film("film", text, false, false, &whole);
    outcome by_line = run_film("film", text, true, false, &each);
    outcome in_json = run_film("film", text, false, true, &json);
    CHECK(is_accepted(one) == is_accepted(by_line) && one.status == in_json.status);
    if (is_accepted(one)) {
        told_run told;
        bool is_waiting = whole.len > 10 && memmem(whole.at, whole.len, "waiting", 7) != NULL;
        CHECK(are_equal(&whole, &each));
        CHECK(is_accepted(read_run("film", all_of(&whole), &told)) == !is_waiting);
        release(&told.units);
    } else {
        CHECK(one.status != STATUS_FAILED && one.line > 0);
    }
    release(&whole);
    release(&each);
    release(&json);
}

/* The units of a run are listed, and read again. */
static void try_reel(part text)
{
    told_run told;
    told_run again;
    bytes listed = { 0 };
    if (is_accepted(read_run("reel", text, &told))) {
        size_t unit = sizeof(captions_access_unit);
        CHECK(told.units.len % unit == 0);
        put_title(&listed, false, access_unit_title);
        for (size_t i = 0; i < told.units.len; i += unit) {
            captions_access_unit one;
            memcpy(&one, told.units.at + i, unit);
            put_access_unit(&listed, false, &one);
        }
        CHECK(is_accepted(read_run("reel", all_of(&listed), &again)));
        CHECK(are_equal(&told.units, &again.units));
        release(&again.units);
    }
    release(&told.units);
    release(&listed);
}

int LLVMFuzzerTestOneInput(const uint8_t *data, size_t len)
{
    static void (*const tries[])(part text) = { try_hex, try_hex_words, try_unit, try_ga94, try_film, try_reel };
    size_t n = sizeof tries / sizeof *tries;
    if (len > 0)
        tries[data[0] % n]((part){ data + 1, len - 1 });
    return 0;
}
