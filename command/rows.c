#include "rows.h"

static bool is_in_text(const item *i)
{
    return i->form != QUIET && i->form != TRUTH;
}

static void put_spaced(bytes *out, const uint8_t *run, uint64_t len)
{
    for (uint64_t i = 0; i < len; i++) {
        if (i > 0)
            put_text(out, " ");
        put_hex(out, run[i]);
    }
}

static void put_in_text(bytes *out, const item *i)
{
    switch (i->form) {
    case HEX:
        put_hex(out, (uint8_t)i->value);
        break;
    case RUN:
        put_spaced(out, i->run, i->value);
        break;
    case DASH:
        put_text(out, "-");
        break;
    default:
        put_decimal(out, i->value);
    }
}

static void put_in_json(bytes *out, const item *i)
{
    switch (i->form) {
    case RUN:
        put_text(out, "\"");
        put_hex_run(out, i->run, i->value);
        put_text(out, "\"");
        break;
    case TRUTH:
        put_text(out, i->value != 0 ? "true" : "false");
        break;
    default:
        put_decimal(out, i->value);
    }
}

static void put_object(bytes *out, const item *items, size_t n)
{
    bool is_first = true;
    put_text(out, "{");
    for (size_t i = 0; i < n; i++) {
        if (items[i].form == DASH)
            continue;
        put_text(out, is_first ? "\"" : ",\"");
        put_text(out, items[i].key);
        put_text(out, "\":");
        put_in_json(out, &items[i]);
        is_first = false;
    }
    put_text(out, "}\n");
}

/* A line of text, with or without the names. */
static void put_line(bytes *out, const item *items, size_t n, bool is_named)
{
    bool is_first = true;
    for (size_t i = 0; i < n; i++) {
        if (!is_in_text(&items[i]) || (items[i].form == RUN && items[i].value == 0))
            continue;
        if (!is_first)
            put_text(out, " ");
        if (is_named) {
            put_text(out, items[i].key);
            put_text(out, " ");
        }
        put_in_text(out, &items[i]);
        is_first = false;
    }
    if (!is_first)
        put_text(out, "\n");
}

void put_row(bytes *out, bool is_json, const item *items, size_t n)
{
    if (is_json)
        put_object(out, items, n);
    else
        put_line(out, items, n, false);
}

void put_head(bytes *out, bool is_json, const item *items, size_t n)
{
    if (is_json)
        put_object(out, items, n);
    else
        put_line(out, items, n, true);
}

void put_title(bytes *out, bool is_json, const char *title)
{
    if (is_json)
        return;
    put_text(out, title);
    put_text(out, "\n");
}

const char access_unit_title[] = "valid_1 valid_2 padding field1 field2";

void put_access_unit(bytes *out, bool is_json, const captions_access_unit *unit)
{
    put_row(out, is_json,
            ITEMS({ "cc_valid_1", DECIMAL, unit->cc_valid_1, NULL }, { "cc_valid_2", DECIMAL, unit->cc_valid_2, NULL },
                  { "padding", DECIMAL, unit->padding, NULL }, { "field1_data1", HEX, unit->field1_data1, NULL },
                  { "field1_data2", HEX, unit->field1_data2, NULL }, { "field2_data1", HEX, unit->field2_data1, NULL },
                  { "field2_data2", HEX, unit->field2_data2, NULL }));
}
