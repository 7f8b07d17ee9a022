/* Fuzz target: the words of a call. The bytes are cut into words at each zero byte. */
#include "check.h"

#include "verbs.h"

#include <stdlib.h>
#include <string.h>

enum { WORDS_MOST = 64 };

/* Whether a value of an option is a part of the words that were given, or none. */
static void check_is_given(const char *value, const char *first, size_t len)
{
    CHECK(value == NULL || (first <= value && value <= first + len));
}

static void check_options(const options *o, const char *first, size_t len)
{
    CHECK(o->verb != NULL || o->is_help || o->is_version);
    check_is_given(o->file, first, len);
    check_is_given(o->output, first, len);
    check_is_given(o->unit, first, len);
    check_is_given(o->unit_file, first, len);
    if (o->verb == NULL || o->is_help)
        return;
    unsigned takes = o->verb->takes;
    CHECK((takes & TAKES_UNIT) == 0 || (o->unit == NULL) != (o->unit_file == NULL));
    CHECK((takes & TAKES_UNIT) != 0 || (o->unit == NULL && o->unit_file == NULL));
    CHECK((takes & TAKES_JSON) != 0 || !o->is_json);
    CHECK((takes & TAKES_VALUE) != 0 || !o->is_value);
    CHECK((takes & TAKES_EACH) != 0 || !o->is_each);
    CHECK((takes & TAKES_FLAGS) != 0 || !o->has_flags);
    CHECK((takes & TAKES_SIZE) != 0 || o->size == CAPTIONS_ACCESS_UNITS);
    CHECK(o->from == FORMAT_HEX || o->verb->is_words == (o->from == FORMAT_BIG || o->from == FORMAT_LITTLE));
}

int LLVMFuzzerTestOneInput(const uint8_t *data, size_t len)
{
    char *text = malloc(len + 1);
    char *words[WORDS_MOST];
    int count = 0;
    if (text == NULL)
        return 0;
    if (len > 0)
        memcpy(text, data, len);
    text[len] = '\0';
    for (char *word = text; word <= text + len && count < WORDS_MOST; word += strlen(word) + 1)
        words[count++] = word;
    options o;
    outcome read = options_of(count, words, &o);
    if (is_accepted(read))
        check_options(&o, text, len);
    else
        CHECK(read.status == STATUS_MISUSED && read.words != NULL);
    free(text);
    return 0;
}
