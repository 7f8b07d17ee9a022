/*
 * bench.c: the library's calls beside plain C of the same work, in one process.
 *
 *   bench [--row SUBSTRING] [--rounds N] [--run N]
 *   bench --areas FILE [--rounds N] [--run N]
 *
 * All are compared before they are timed: times of programs that differ would tell nothing. Each row alternates short
 * rounds of each program and keeps the shortest of each, which is what a busy machine disturbs least. What it prints is
 * for table.awk: fields with tabs between them.
 */
#define _POSIX_C_SOURCE 200809L

#include "areas.h"

#include <stdio.h>
#include <stdlib.h>
#include <string.h>
#include <time.h>

enum { RANDOM_INPUTS = 200000 };

/* ---- Comparing ---- */

static const calls *plain_calls(size_t program, enum search_by search)
{
    return search == MEMCHR ? &plain_programs[program]->memchr : &plain_programs[program]->own;
}

static bool all_agree_on_random(void)
{
    for (size_t p = 0; p < plain_count; p++) {
        if (!agree_on_random(&plain_programs[p]->own, RANDOM_INPUTS) ||
            !agree_on_random(&plain_programs[p]->memchr, RANDOM_INPUTS)) {
            fprintf(stderr, "bench: plain C by %s and the library differ on a random input\n",
                    plain_programs[p]->compiler);
            return false;
        }
    }
    return true;
}

/* Whether all programs have the row's answer to the sample. */
static bool all_agree_on_sample(const row *r, const sample *s)
{
    for (size_t p = 0; p < plain_count; p++) {
        size_t before = agree_numbers[r->number];
        if (!agree_on_sample(r->call, plain_calls(p, r->search), s) || agree_numbers[r->number] != before + 1) {
            return false;
        }
    }
    return true;
}

/* Makes a row's inputs. They are of a random sequence of its own, whatever rows and compilers there are besides. */
static bool prepare(size_t index, sample *samples)
{
    const row *r = &rows[index];
    memset(samples, 0, SAMPLES * sizeof *samples);
    restart((uint32_t)index);
    for (size_t i = 0; i < SAMPLES; i++) {
        r->make(&samples[i], r->n);
    }
    for (size_t i = 0; i < SAMPLES; i++) {
        if (!all_agree_on_sample(r, &samples[i])) {
            fprintf(stderr, "bench: the programs differ, or have another answer than expected, in row: %s\n", r->name);
            return false;
        }
    }
    return true;
}

/* ---- Timing ---- */

static double now_ns(void)
{
    struct timespec t;
    clock_gettime(CLOCK_MONOTONIC, &t);
    return 1e9 * (double)t.tv_sec + (double)t.tv_nsec;
}

/* What is timed: a call over samples in turn, or over the areas of a file, if samples is null. */
typedef struct work {
    const char *name;
    enum search_by search;
    enum call call;
    const sample *samples;
    size_t turn; /* how many inputs there are: a round has each of them equally often */
} work;

/* Nanoseconds for one call, over `times` calls. */
static double time_round(const work *w, const calls *c, size_t times)
{
    double begin = now_ns();
    if (w->samples != NULL) {
        run_call(w->call, c, w->samples, times);
    } else {
        run_on_areas(w->call, c, times);
    }
    return (now_ns() - begin) / (double)times;
}

static size_t whole_turns(const work *w, double calls)
{
    return ((size_t)calls / w->turn + 1) * w->turn;
}

/* How many calls take about ten milliseconds. */
static size_t calls_in_round(const work *w, const calls *c)
{
    double one = time_round(w, c, w->turn);
    double again = time_round(w, c, whole_turns(w, 1e6 / one));
    return whole_turns(w, 1e7 / (again < one ? again : one));
}

/* A program, and its shortest round. */
typedef struct timing {
    const calls *program;
    size_t times;
    double best;
} timing;

/* Prints the row: the plain programs, then the library. */
static void time_work(const work *w, size_t rounds)
{
    timing of[MOST_PLAIN + 1];
    size_t programs = plain_count + 1;
    for (size_t p = 0; p < programs; p++) {
        const calls *program = p < plain_count ? plain_calls(p, w->search) : &library_calls;
        of[p] = (timing){program, calls_in_round(w, program), 1e300};
    }
    for (size_t i = 0; i < rounds; i++) {
        for (size_t p = 0; p < programs; p++) {
            double ns = time_round(w, of[p].program, of[p].times);
            of[p].best = ns < of[p].best ? ns : of[p].best;
        }
    }
    printf("row\t%s", w->name);
    for (size_t p = 0; p < programs; p++) {
        printf("\t%.3f", of[p].best);
    }
    printf("\n");
    fflush(stdout);
}

/* ---- Output ---- */

/* The processor's name, as Linux tells it. */
static void print_processor(void)
{
    char line[256];
    FILE *f = fopen("/proc/cpuinfo", "r");
    while (f != NULL && fgets(line, sizeof line, f) != NULL) {
        char *colon = strchr(line, ':');
        if (strncmp(line, "model name", 10) == 0 && colon != NULL) {
            line[strcspn(line, "\n")] = 0;
            printf("processor\t%s\n", colon + 2);
            fclose(f);
            return;
        }
    }
    if (f != NULL) {
        fclose(f);
    }
    printf("processor\tnot told\n");
}

static void print_head(size_t rounds)
{
    print_processor();
    for (size_t p = 0; p < plain_count; p++) {
        printf("compiler\t%s\t%s\n", plain_programs[p]->compiler, plain_programs[p]->version);
    }
    printf("rounds\t%zu\n", rounds);
}

/* ---- Both tables ---- */

/*
 * Room for the samples. A load soon behind a store may wait for it if their addresses are equal but for pages of 4,096
 * bytes, so in each of three runs the samples are another third of a page away from what the calls store to.
 */
static sample *place_samples(size_t run)
{
    enum { THIRD = 21 * 64 };
    char *memory = malloc(SAMPLES * sizeof(sample) + 3 * THIRD);
    if (memory == NULL) {
        fprintf(stderr, "bench: no memory\n");
        exit(1);
    }
    return (sample *)(void *)(memory + run % 3 * THIRD);
}

static int time_rows(const char *wanted, size_t rounds, size_t run)
{
    sample *samples = place_samples(run);
    size_t timed = 0;
    for (size_t i = 0; i < row_count; i++) {
        const row *r = &rows[i];
        if (!prepare(i, samples)) {
            return 1;
        }
        if (strstr(r->name, wanted) != NULL) {
            time_work(&(work){r->name, r->search, r->call, samples, SAMPLES}, rounds);
            timed++;
        }
    }
    if (timed == 0) {
        fprintf(stderr, "bench: no row has this in its name: %s\n", wanted);
    }
    return timed == 0;
}

static int time_areas(const char *path, size_t rounds)
{
    static const struct {
        const char *name;
        enum call call;
    } of[] = {
        {"read SCTE 20", AREA_READ},
        {"read GA94", GA94_READ},
        {"replace SCTE 20", AREA_REPLACE},
        {"replace GA94", GA94_REPLACE},
    };
    areas_told told = load_areas(path);
    if (told.count == 0) {
        return 1;
    }
    printf("areas\t%zu\t%zu\t%zu\n", told.count, told.least, told.most);
    for (size_t i = 0; i < sizeof of / sizeof of[0]; i++) {
        for (size_t p = 0; p < plain_count; p++) {
            if (!agree_on_areas(of[i].call, &plain_programs[p]->own)) {
                fprintf(stderr, "bench: the programs differ on an area of %s: %s\n", path, of[i].name);
                return 1;
            }
        }
        time_work(&(work){of[i].name, OWN, of[i].call, NULL, told.count}, rounds);
    }
    return 0;
}

int main(int argc, char **argv)
{
    const char *wanted = "";
    const char *areas = NULL;
    size_t rounds = 30;
    size_t run = 0;
    for (int i = 1; i < argc; i += 2) {
        if (strcmp(argv[i], "--row") == 0 && i + 1 < argc) {
            wanted = argv[i + 1];
        } else if (strcmp(argv[i], "--areas") == 0 && i + 1 < argc) {
            areas = argv[i + 1];
        } else if (strcmp(argv[i], "--rounds") == 0 && i + 1 < argc && atoi(argv[i + 1]) > 0) {
            rounds = (size_t)atoi(argv[i + 1]);
        } else if (strcmp(argv[i], "--run") == 0 && i + 1 < argc && atoi(argv[i + 1]) >= 0) {
            run = (size_t)atoi(argv[i + 1]);
        } else {
            fprintf(stderr, "usage: bench [--row SUBSTRING | --areas FILE] [--rounds N] [--run N]\n");
            return 2;
        }
    }
    if (!all_agree_on_random()) {
        return 1;
    }
    print_head(rounds);
    return areas == NULL ? time_rows(wanted, rounds, run) : time_areas(areas, rounds);
}
