/*
 * vectors.c: runs files of text vectors through the library and through the model.
 *
 *     vectors FILE..
 *
 * Every line of every file must be asked or be skipped for a reason that is printed. The status is 1 where an answer
 * differs, a line is not understood, a file cannot be read, or an operation had no accepted or no refused line. A line of film
 * counts as refused where one of its calls is.
 */
#define _POSIX_C_SOURCE 200809L /* getline */
#include <stdio.h>
#include <stdlib.h>
#include <string.h>

#include "alter.h"
#include "film_runs.h"
#include "parse.h"

enum { REASONS_MAX = 16 };

typedef struct kind_tally {
    unsigned long lines, asked, accepted, refused, skipped, library_differs, model_differs;
} kind_tally;

typedef struct reason {
    int kind;
    const char *why;
    unsigned long lines;
} reason;

static kind_tally tallies[KINDS];
static reason reasons[REASONS_MAX];
static unsigned long bad_lines;
static vector_line line_read;
static outcome got;

static void count_skipped(int kind, const char *why)
{
    tallies[kind].skipped++;
    for (int i = 0; i < REASONS_MAX; i++) {
        if (reasons[i].lines == 0)
            reasons[i] = (reason){kind, why, 0};
        if (reasons[i].kind == kind && strcmp(reasons[i].why, why) == 0) {
            reasons[i].lines++;
            return;
        }
    }
    fputs("more reasons for skipping than there is room for\n", stderr);
    exit(1);
}

/* What the accepted calls of a run store, which is all of their output. */
static void keep_film(const vector_line *v, outcome *expected)
{
    memcpy(expected->states, v->expected.states, sizeof expected->states);
    for (size_t i = 0; i < v->q.film.count; i++)
        if (film_accepted(expected, i))
            memcpy(expected->memory + FILM_BYTES * i, film_output(&v->expected, i), FILM_BYTES);
}

/* The outcome of a line where the lent output held another pattern before. */
static void with_fill(vector_line *v, uint16_t fill, outcome *expected)
{
    size_t kept = is_writer(v->q.op) ? (size_t)v->expected.numbers[2] * element_bytes(v->q.op) : v->expected.size;

    v->q.fill = fill;
    outcome_begin(&v->q, expected);
    memcpy(expected->numbers, v->expected.numbers, sizeof expected->numbers);
    if (v->q.op == FILM_RUN)
        keep_film(v, expected);
    else if (expected->numbers[0] == 0)
        memcpy(expected->memory, v->expected.memory, kept);
}

/*
 * Twice: with the pattern of the vectors, and with one that differs in every byte, so that no byte is right by chance; with
 * the untouchable page behind the lent memory, and with it before; with a null pointer for what is empty, and without.
 */
static bool passes_twice(const calls *who, const char *name, vector_line *v)
{
    static const uint16_t fills[] = {FILL + 0x8080, FILL};
    static const side sides[] = {AT_FRONT, AT_END};

    for (size_t i = 0; i < sizeof fills / sizeof *fills; i++) {
        static outcome expected;
        const char *differs;
        with_fill(v, fills[i], &expected);
        v->q.at = sides[i];
        v->q.nulls = i == 0;
        ask(who, &v->q, SPOIL_NOTHING, &got);
        differs = difference(&v->q, &expected, &got);
        if (differs != NULL) {
            printf("DIFFERS: %s: %s%s: %s\n", guard_asking, name, v->q.as_bytes ? ", as bytes" : "", differs);
            v->q.fill = FILL;
            v->q.nulls = false;
            return false;
        }
    }
    return true;
}

/* A reel is written by each of its two calls, but one that ends within a unit only by the one over bytes. */
static bool passes(const calls *who, const char *name, vector_line *v)
{
    bool by_bytes = true;

    if (v->q.op == PAYLOAD_REEL) {
        v->q.as_bytes = true;
        by_bytes = passes_twice(who, name, v);
        if (v->q.reel.stray > 0)
            return by_bytes;
    }
    v->q.as_bytes = false;
    return passes_twice(who, name, v) && by_bytes;
}

static void run_case(const char *line)
{
    kind_tally *tally = &tallies[line_read.kind];
    bool library_passes = passes(&library_calls, "library", &line_read);

    tally->asked++;
    if (refusal_of(&line_read.q, &line_read.expected) == 0)
        tally->accepted++;
    else
        tally->refused++;
    if (!library_passes)
        tally->library_differs++;
    if (!passes(&model_calls, "model", &line_read))
        tally->model_differs++;
    if (library_passes)
        alter_line(line, &line_read);
}

static void run_line(char *line)
{
    char *whole = strdup(line);
    parsed sort;

    if (whole == NULL)
        exit(1);
    sort = parse_line(line, &line_read);
    if (line_read.kind >= 0)
        tallies[line_read.kind].lines++;
    if (sort == PARSED_CASE) {
        run_case(whole);
    } else if (sort == PARSED_SKIPPED) {
        count_skipped(line_read.kind, line_read.why);
    } else {
        bad_lines++;
        printf("BAD: %s: %s: %.120s\n", guard_asking, line_read.why, whole);
    }
    free(whole);
}

static bool run_file(const char *name)
{
    FILE *file = fopen(name, "r");
    char *line = NULL;
    size_t room = 0;
    unsigned long at = 0;
    ssize_t len;

    if (file == NULL) {
        perror(name);
        return false;
    }
    while ((len = getline(&line, &room, file)) > 0) {
        snprintf(guard_asking, sizeof guard_asking, "%s:%lu", name, ++at);
        if (line[len - 1] == '\n')
            line[len - 1] = '\0';
        if (line[0] != '#')
            run_line(line);
    }
    free(line);
    if (ferror(file) || at == 0) {
        printf("%s: no lines could be read\n", name);
        fclose(file);
        return false;
    }
    fclose(file);
    return true;
}

static bool report(void)
{
    bool good = bad_lines == 0;

    printf("%-16s %7s %7s %9s %8s %8s %16s %14s\n", "vectors", "lines", "asked", "accepted", "refused", "skipped",
           "library differs", "model differs");
    for (int kind = 0; kind < KINDS; kind++) {
        const kind_tally *t = &tallies[kind];
        printf("%-16s %7lu %7lu %9lu %8lu %8lu %16lu %14lu\n", kind_name(kind), t->lines, t->asked, t->accepted, t->refused,
               t->skipped, t->library_differs, t->model_differs);
        good = good && t->library_differs == 0 && t->model_differs == 0 && t->lines == t->asked + t->skipped;
        if (kind < OPERATIONS && (t->accepted == 0 || t->refused == 0)) {
            printf("%s: no accepted or no refused line was asked\n", kind_name(kind));
            good = false;
        }
    }
    for (int i = 0; i < REASONS_MAX && reasons[i].lines > 0; i++)
        printf("skipped: %lu %s: %s\n", reasons[i].lines, kind_name(reasons[i].kind), reasons[i].why);
    if (bad_lines > 0)
        printf("%lu lines were not understood\n", bad_lines);
    return good;
}

int main(int argc, char **argv)
{
    bool good = true;

    harness_open();
    if (!guards_hold()) {
        puts("the guards around lent memory do not hold");
        good = false;
    }
    for (int i = 1; i < argc; i++)
        good = run_file(argv[i]) && good;
    good = report() && good;
    good = alter_report() && good;
    if (!arenas_are_whole()) {
        puts("guard bytes far from a lent piece were changed");
        good = false;
    }
    puts(good ? "vectors: passed" : "vectors: FAILED");
    return good ? 0 : 1;
}
