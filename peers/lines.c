#include "lines.h"

#include <stdlib.h>
#include <string.h>
#include <sys/types.h>

static void fail(const char *what, const char *text)
{
    fprintf(stderr, "no %s at: %.40s\n", what, text);
    exit(2);
}

void print_bytes(const uint8_t *bytes, size_t len)
{
    if (len == 0)
        printf("-");
    for (size_t i = 0; i < len; i++) {
        putchar("0123456789ABCDEF"[bytes[i] >> 4]);
        putchar("0123456789ABCDEF"[bytes[i] & 15]);
    }
}

const char *next_line(FILE *file)
{
    static char *line;
    static size_t room;
    if (getline(&line, &room, file) < 0)
        return NULL;
    line[strcspn(line, "\n")] = 0;
    return line;
}

bool begins(const char *line, const char *word, const char **rest)
{
    size_t len = strlen(word);
    if (strncmp(line, word, len) != 0 || (line[len] != ' ' && line[len] != 0))
        return false;
    *rest = line + len + (line[len] == ' ');
    return true;
}

static void pass_space(const char **text)
{
    if (**text != ' ' && **text != 0)
        fail("space", *text);
    *text += **text == ' ';
}

int take_number(const char **text)
{
    char *end;
    long number = strtol(*text, &end, 10);
    if (end == *text)
        fail("number", *text);
    *text = end;
    pass_space(text);
    return (int)number;
}

static int digit(char c)
{
    return c >= '0' && c <= '9' ? c - '0' : c >= 'A' && c <= 'F' ? c - 'A' + 10 : -1;
}

struct bytes take_bytes(const char **text)
{
    struct bytes b = { malloc(strlen(*text) + 1), 0 };
    if (!b.data)
        exit(2);
    for (; digit((*text)[0]) >= 0 && digit((*text)[1]) >= 0; *text += 2)
        b.data[b.len++] = (uint8_t)(16 * digit((*text)[0]) + digit((*text)[1]));
    if (b.len == 0 && *(*text)++ != '-')
        fail("bytes", *text - 1);
    pass_space(text);
    return b;
}
