#include "options.h"

#include "text.h"
#include "verbs.h"

#include <string.h>

/* One option: its names, in which set of a verb's it is, and whether a value follows it. */
typedef struct option {
    const char *name;
    const char *letter;
    unsigned taken; /* 0: by every verb */
    bool has_value;
} option;

enum { FROM, TO, JSON, OUTPUT, UNIT, UNIT_FILE, VALUE, FLAGS, SIZE, EACH, HELP, OPTIONS };

static const option known[OPTIONS] = {
    [FROM] = { "--from", "-f", TAKES_FROM, true },
    [TO] = { "--to", "-t", TAKES_TO, true },
    [JSON] = { "--json", "-j", TAKES_JSON, false },
    [OUTPUT] = { "--output", "-o", 0, true },
    [UNIT] = { "--unit", "-u", TAKES_UNIT, true },
    [UNIT_FILE] = { "--unit-file", NULL, TAKES_UNIT, true },
    [VALUE] = { "--value", NULL, TAKES_VALUE, false },
    [FLAGS] = { "--flags", NULL, TAKES_FLAGS, true },
    [SIZE] = { "--size", NULL, TAKES_SIZE, true },
    [EACH] = { "--each", NULL, TAKES_EACH, false },
    [HELP] = { "--help", "-h", 0, false },
};

bool is_standard_input(const char *file)
{
    return file == NULL || strcmp(file, "-") == 0;
}

const char *name_of(const char *file)
{
    return is_standard_input(file) ? "standard input" : file;
}

const char *input_name(const options *o)
{
    return name_of(o->file);
}

static const verb *verb_of(const char *word)
{
    for (const verb *v = verbs; v->name != NULL; v++)
        if (strcmp(v->name, word) == 0)
            return v;
    return NULL;
}

/* Which option a word is, OPTIONS where none, and what stands behind its equals sign, null where there is none. */
static size_t option_of(const char *word, const char **value)
{
    *value = NULL;
    for (size_t i = 0; i < OPTIONS; i++) {
        size_t len = strlen(known[i].name);
        if (strncmp(word, known[i].name, len) == 0 && (word[len] == '\0' || word[len] == '=')) {
            *value = word[len] == '=' ? word + len + 1 : NULL;
            return i;
        }
        if (known[i].letter != NULL && strcmp(word, known[i].letter) == 0)
            return i;
    }
    return OPTIONS;
}

/* ---- Values of options ---- */

static outcome take_from(options *o, const char *value)
{
    bool is_words = o->verb->is_words;
    if (strcmp(value, "hex") == 0)
        o->from = FORMAT_HEX;
    else if (!is_words && strcmp(value, "bytes") == 0)
        o->from = FORMAT_BYTES;
    else if (is_words && strcmp(value, "big") == 0)
        o->from = FORMAT_BIG;
    else if (is_words && strcmp(value, "little") == 0)
        o->from = FORMAT_LITTLE;
    else
        return misused(is_words ? "the input is `big`, `little` or `hex`, and not"
                                : "the input is `bytes` or `hex`, and not",
                       value);
    return accepted();
}

static outcome take_to(options *o, const char *value)
{
    if (strcmp(value, "hex") == 0)
        o->to = FORMAT_HEX;
    else if (strcmp(value, "bytes") == 0)
        o->to = FORMAT_BYTES;
    else
        return misused("the output is `bytes` or `hex`, and not", value);
    return accepted();
}

static outcome take_flags(options *o, const char *value)
{
    uint64_t n;
    if (!hex_of(part_of(value), &n))
        return misused("the flags byte is a number in hex, and not", value);
    o->flags = to_32(n);
    o->has_flags = true;
    return accepted();
}

static outcome take_size(options *o, const char *value)
{
    uint64_t n;
    if (!decimal_of(part_of(value), &n))
        return misused("the size is a number, and not", value);
    o->size = n;
    return accepted();
}

/* What an option says; value is null where it has none. */
static outcome take(options *o, size_t which, const char *value)
{
    switch (which) {
    case FROM:
        return take_from(o, value);
    case TO:
        return take_to(o, value);
    case FLAGS:
        return take_flags(o, value);
    case SIZE:
        return take_size(o, value);
    case OUTPUT:
        o->output = value;
        break;
    case UNIT:
        o->unit = value;
        break;
    case UNIT_FILE:
        o->unit_file = value;
        break;
    case JSON:
        o->is_json = true;
        break;
    case VALUE:
        o->is_value = true;
        break;
    case EACH:
        o->is_each = true;
        break;
    default:
        o->is_help = true;
    }
    return accepted();
}

/* ---- The whole call ---- */

/* Reads the option that words[*i] is, with its value, and leaves *i at its last word. */
static outcome next_option(int count, char *const *words, int *i, bool *seen, options *o)
{
    const char *value;
    const char *word = words[*i];
    size_t which = option_of(word, &value);
    if (which == OPTIONS)
        return misused("there is no option", word);
    const option *known_one = &known[which];
    if (known_one->taken != 0 && (o->verb->takes & known_one->taken) == 0)
        return misused("this verb does not take", word);
    if (seen[which])
        return misused("an option is given twice:", known_one->name);
    seen[which] = true;
    if (!known_one->has_value && value != NULL)
        return misused("an option that takes no value has one:", word);
    if (known_one->has_value && value == NULL) {
        if (*i + 1 >= count)
            return misused("an option needs a value:", word);
        value = words[++*i];
    }
    return take(o, which, value);
}

/* What options can say only together. */
static outcome judge(const options *o)
{
    if ((o->verb->takes & TAKES_UNIT) != 0 && (o->unit == NULL) == (o->unit_file == NULL))
        return misused("the new unit is told by --unit or by --unit-file, by one of them", NULL);
    if (o->unit_file != NULL && is_standard_input(o->unit_file) && is_standard_input(o->file))
        return misused("unit and area cannot both come from standard input", NULL);
    if (o->is_json && o->is_value)
        return misused("--json and --value are not taken together", NULL);
    return accepted();
}

/* The words behind the verb. */
static outcome options_behind(int count, char *const *words, options *o)
{
    bool seen[OPTIONS] = { false };
    bool are_files = false;
    for (int i = 0; i < count; i++) {
        const char *word = words[i];
        if (!are_files && strcmp(word, "--") == 0) {
            are_files = true;
        } else if (!are_files && word[0] == '-' && word[1] != '\0') {
            outcome read = next_option(count, words, &i, seen, o);
            if (!is_accepted(read))
                return read;
        } else if (o->file != NULL) {
            return misused("there is one file, and a second is", word);
        } else {
            o->file = word;
        }
    }
    return o->is_help ? accepted() : judge(o);
}

outcome options_of(int count, char *const *words, options *o)
{
    *o = (options){ .size = CAPTIONS_ACCESS_UNITS };
    if (count == 0)
        return misused("there is no verb", NULL);
    const char *first = words[0];
    o->is_help = strcmp(first, "--help") == 0 || strcmp(first, "-h") == 0;
    o->is_version = strcmp(first, "--version") == 0;
    if (o->is_help || o->is_version)
        return count == 1 ? accepted() : misused("it stands alone:", first);
    o->verb = verb_of(first);
    if (o->verb == NULL)
        return misused("there is no verb", first);
    o->from = o->verb->is_words ? FORMAT_BIG : FORMAT_BYTES;
    return options_behind(count - 1, words + 1, o);
}
