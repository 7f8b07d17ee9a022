#include "help.h"

#include "built.h"

/* The lines of --help that a verb has for its options. */
typedef struct about_option {
    unsigned taken; /* 0: by every verb */
    const char *line;
} about_option;

static const about_option from_bytes = { TAKES_FROM,
                                         "  -f, --from FORMAT   the input is `bytes` (the default) or `hex`\n" };
static const about_option from_words = {
    TAKES_FROM, "  -f, --from FORMAT   the words are `big` (two bytes each, the high one first, the\n"
                "                      default), `little` or `hex`\n"
};

static const about_option others[] = {
    { TAKES_TO, "  -t, --to FORMAT     the output is `bytes` (the default) or `hex`\n" },
    { TAKES_JSON, "  -j, --json          one JSON object a line\n" },
    { TAKES_VALUE, "      --value         the value in the words that --unit takes\n" },
    { TAKES_UNIT, "  -u, --unit WORDS    the value of the new unit\n"
                  "      --unit-file F   the same words from a file\n" },
    { TAKES_SIZE, "      --size N        how many units a payload has; 291, the most, is the default\n" },
    { TAKES_FLAGS, "      --flags HEX     the flags byte; else the one that the lines tell, or 00\n" },
    { TAKES_EACH, "      --each          answer each line by itself: a refusal stands in its\n"
                  "                      place, and the run goes on\n" },
    { 0, "  -o, --output FILE   write to FILE: to a new file beside it, which takes its name\n"
         "  -h, --help          this text\n" },
};

static void put_option(const verb *v, const about_option *option, bytes *out)
{
    if (option->taken == 0 || (v->takes & option->taken) != 0)
        put_text(out, option->line);
}

void put_help(const verb *v, bytes *out)
{
    put_text(out, "usage: captions ");
    put_text(out, v->name);
    put_text(out, (v->takes & TAKES_UNIT) != 0 ? " --unit WORDS" : "");
    put_text(out, " [OPTION].. [FILE]\n\n");
    put_text(out, v->about);
    put_text(out, "\n");
    put_option(v, v->is_words ? &from_words : &from_bytes, out);
    for (size_t i = 0; i < sizeof others / sizeof *others; i++)
        put_option(v, &others[i], out);
    put_text(out, "\nExample:\n");
    put_text(out, v->example);
}

void put_usage(bytes *out)
{
    put_text(out, "usage: captions VERB [OPTION].. [FILE]\n"
                  "       captions VERB --help\n"
                  "       captions --help | --version\n\n"
                  "Lists, replaces and converts closed captions and teletext. FILE is standard\n"
                  "input if it is `-` or missing. What is not ours passes byte for byte; what is,\n"
                  "is read as a whole, or refused with a number; and nothing is repaired.\n\n");
    for (const verb *v = verbs; v->name != NULL; v++) {
        size_t start = out->len;
        put_text(out, "  ");
        put_text(out, v->name);
        while (!out->is_short && out->len - start < 16)
            put_text(out, " ");
        put_text(out, v->summary);
        put_text(out, "\n");
    }
    put_text(out, "\nStatus: 0 accepted, 1 refused (`refused N at P` on standard error), 2 wrong\n"
                  "use, 3 input or output failed.\n");
}

void put_version(bytes *out)
{
    put_text(out, "captions " BUILT_VERSION "\n");
    put_text(out, "commit " BUILT_COMMIT "\n");
    put_text(out, "archive sha256 " BUILT_ARCHIVE "\n");
    put_text(out, "kit " BUILT_KIT "\n");
}
