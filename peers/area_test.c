/*
 * area_test AREAS: the peer's side of the picture area. Puts the areas that make_areas printed behind the picture headers of
 * streams, and compares what a peer hands on with what it should. The streams lie in the working directory.
 *
 *   carriage NAME                   which one, and the heading
 *   equal REPLACED STREAM           the pictures behind it are a stream's; REPLACED is 1 where a foreign unit tells AFD 8
 *   tally STREAM                    print what came of them
 *   fields STREAM                   a stream's first pictures: show what comes out
 *   mixed OURS STREAM WHAT          the same for units of both kinds; OURS is the number of the library, 0 where it reads all
 *   stream STREAM                   the stream of all that follows
 *   carried VALUE                   whether a unit with this value is taken for captions
 *   taken NAME                      print with which values it was
 *   past CARRIAGE                   a unit with cc_count 31 and one construct
 *   plain                           the unit of all pictures around the special one
 *   case NUMBER OURS RECORDS WHAT   a special area: the number of RULES, that of the library, its records (-1 for no unit)
 *   picture AREA TRIPLES            one picture
 */
#include "lines.h"
#include "peer.h"

#include <stdio.h>
#include <stdlib.h>
#include <string.h>

enum { DEFECT_AT = 3, DEFECT_PICTURES = 8, SHOWN = 6, CARRIED = 256 };

static void fail(const char *what)
{
    fprintf(stderr, "area_test: %s\n", what);
    exit(2);
}

/* ---- The file of areas ---- */

struct spot {
    struct bytes area, triples;
};

/* A line that is no picture, and the pictures behind it. */
struct job {
    char head[200];
    size_t n;
    struct spot spots[MAX_PICTURES];
};

static void take_picture(struct job *job, const char *text)
{
    if (job->n == MAX_PICTURES)
        fail("more pictures than a stream has");
    struct spot *s = &job->spots[job->n++];
    s->area = take_bytes(&text);
    s->triples = take_bytes(&text);
    if (*text || s->triples.len % 3)
        fail("a picture line that cannot be read");
}

/* The next line and its pictures. The line behind the pictures is kept for the next call. */
static bool next_job(FILE *file, struct job *job)
{
    static const char *line;
    const char *rest;
    job->n = 0;
    if (!line && !(line = next_line(file)))
        return false;
    snprintf(job->head, sizeof job->head, "%s", line);
    while ((line = next_line(file)) && begins(line, "picture", &rest))
        take_picture(job, rest);
    return true;
}

static void free_job(struct job *job)
{
    for (size_t k = 0; k < job->n; k++) {
        free(job->spots[k].area.data);
        free(job->spots[k].triples.data);
    }
}

/* The stream of that name, which stays until another one is asked for. */
static const struct stream *stream_of(const char *name)
{
    static struct stream s;
    static char loaded[100];
    if (strcmp(name, loaded) != 0) {
        free(s.data);
        s = stream_load(name);
        snprintf(loaded, sizeof loaded, "%s", name);
    }
    return &s;
}

/* ---- Asking the peer ---- */

struct run {
    struct bytes pictures[MAX_PICTURES];
    bool second[MAX_PICTURES]; /* the second field of a frame */
    struct answer answers[MAX_PICTURES];
    struct notes notes;
};

static struct run run;

static void prepare(const struct stream *s, size_t k, const struct bytes *area)
{
    if (k >= s->n)
        fail("more areas than pictures");
    run.pictures[k] = picture_with_area(s, k, area->data, area->len);
    run.second[k] = k > 0 && s->pictures[k].structure != 3 && s->pictures[k - 1].structure != 3 && !run.second[k - 1];
}

static void ask(size_t n)
{
    memset(run.answers, 0, sizeof run.answers);
    for (size_t k = 0; k < n; k++)
        run.answers[k].afd = -1;
    run.notes = (struct notes){ 0 };
    peer_read(run.pictures, run.second, n, run.answers, &run.notes);
    for (size_t k = 0; k < n; k++)
        free(run.pictures[k].data);
}

static void ask_all(const struct stream *s, const struct job *job)
{
    for (size_t k = 0; k < job->n; k++)
        prepare(s, k, &job->spots[k].area);
    ask(job->n);
}

void note(struct notes *notes, const char *format, va_list args)
{
    char text[NOTE_BYTES];
    if (!notes || notes->n == MAX_NOTES)
        return;
    vsnprintf(text, sizeof text, format, args);
    text[strcspn(text, "\n")] = 0;
    for (size_t i = 0; i < notes->n; i++)
        if (strcmp(notes->texts[i], text) == 0)
            return;
    memcpy(notes->texts[notes->n++], text, sizeof text);
}

/* ---- Legal values ---- */

static char carriage[20];

struct tally {
    size_t pictures, lost, other_count, records, triples, data_equal, type_equal, afd, afd_equal;
};

static struct tally tally; /* of one stream */
static struct tally total; /* of the streams with frame pictures */

static void compare(struct tally *t, const struct bytes *expected, const struct answer *a)
{
    size_t n = expected->len / 3;
    t->pictures++;
    t->lost += !a->frame;
    t->records += n;
    t->triples += a->n;
    t->other_count += a->n != n;
    for (size_t i = 0; i < n && i < a->n; i++) {
        const uint8_t *e = expected->data + 3 * i, *c = a->triples[i];
        t->data_equal += c[1] == e[1] && c[2] == e[2];
        t->type_equal += (c[0] & 7) == e[0];
    }
}

static void add(struct tally *to, const struct tally *t)
{
    to->pictures += t->pictures, to->lost += t->lost, to->other_count += t->other_count;
    to->records += t->records, to->triples += t->triples;
    to->data_equal += t->data_equal, to->type_equal += t->type_equal;
    to->afd += t->afd, to->afd_equal += t->afd_equal;
}

static void equal_test(const struct job *job, const char *text)
{
    int replaced = take_number(&text);
    ask_all(stream_of(text), job);
    for (size_t k = 0; k < job->n; k++) {
        if (run.second[k])
            continue;
        compare(&tally, &job->spots[k].triples, &run.answers[k]);
        tally.afd += replaced;
        tally.afd_equal += replaced && run.answers[k].afd == 8;
    }
}

static void print_tally(const char *name)
{
    const struct tally *t = &tally;
    printf("%-18s pictures %zu, lost %zu, with another count %zu; records in %zu, triples out %zu, data equal %zu, field equal %zu",
           name, t->pictures, t->lost, t->other_count, t->records, t->triples, t->data_equal, t->type_equal);
    if (peer_tells_afd)
        printf("; AFD in %zu, equal %zu", t->afd, t->afd_equal);
    printf("\n");
    if (stream_of(name)->pictures[0].structure == 3)
        add(&total, t);
    tally = (struct tally){ 0 };
}

/* ---- A number that is carried ---- */

static bool taken[CARRIED];
static size_t carried_values;

static void carried_test(const struct stream *s, const struct job *job)
{
    for (size_t k = 0; k < 4; k++)
        prepare(s, k, &job->spots[0].area);
    ask(4);
    if (carried_values == CARRIED)
        fail("more values than expected");
    taken[carried_values++] = run.answers[2].n > 0;
}

static void print_taken(const char *name)
{
    size_t count = 0;
    for (size_t value = 0; value < carried_values; value++)
        count += taken[value];
    printf("%s values with which a unit is taken for captions:", name);
    for (size_t value = 0; value < carried_values && count < carried_values; value++)
        if (taken[value])
            printf(" %zu", value);
    printf(" (%zu of %zu)\n", count, carried_values);
}

/* ---- What comes out ---- */

static void print_answer(const struct answer *a)
{
    if (!a->frame)
        printf("picture lost");
    else if (a->n == 0)
        printf("no captions");
    else
        printf("%zu triple%s:", a->n, a->n == 1 ? "" : "s");
    for (size_t i = 0; i < a->n && i < SHOWN; i++)
        printf("%s %02X %02X %02X", i ? "," : "", a->triples[i][0], a->triples[i][1], a->triples[i][2]);
    if (a->n > SHOWN)
        printf(", ..");
    if (a->afd >= 0)
        printf("; AFD %d", a->afd);
}

/* One pair of field 1 in each picture. It shows with which picture it comes out, and which field of the frame a peer takes it for. */
static void show_fields(const struct job *job, const char *name)
{
    static const char *const structures[] = { "?", "top field", "bottom field", "frame" };
    const struct stream *s = stream_of(name);
    ask_all(s, job);
    for (size_t k = 0; k < job->n; k++) {
        const uint8_t *t = job->spots[k].triples.data;
        printf("%-18s picture %zu, %s, top_field_first %d: field 1 with %02X %02X | peer: ", name, k,
               structures[s->pictures[k].structure], s->pictures[k].top_field_first, t[1], t[2]);
        if (run.second[k] && !run.answers[k].frame)
            printf("no frame of its own");
        else
            print_answer(&run.answers[k]);
        printf("\n");
    }
    for (size_t i = 0; i < run.notes.n; i++)
        printf("%-18s log: %s\n", name, run.notes.texts[i]);
}

/* ---- Reading on behind the end of a unit ---- */

static uint32_t get_bits(const uint8_t *d, size_t at, unsigned count)
{
    uint32_t value = 0;
    for (; count > 0; count--, at++)
        value = value << 1 | (d[at / 8] >> (7 - at % 8) & 1);
    return value;
}

static uint8_t reversed(uint32_t byte)
{
    uint8_t r = 0;
    for (int i = 0; i < 8; i++)
        r |= (uint8_t)((byte >> i & 1) << (7 - i));
    return r;
}

/* Whether the triple is what a reader makes of 26 bits that it takes for a construct of SCTE 20. */
static bool made_of_scte20(const uint8_t *triple, const uint8_t *d, size_t at)
{
    uint32_t field = get_bits(d, at + 2, 2);
    if (field == 0)
        return triple[0] == 0 && triple[1] == 0 && triple[2] == 0;
    return (triple[0] & 7) == (4 | (field == 2)) && triple[1] == reversed(get_bits(d, at + 9, 8)) &&
           triple[2] == reversed(get_bits(d, at + 17, 8));
}

static bool made_of_ga94(const uint8_t *triple, const uint8_t *d, size_t at)
{
    return (triple[0] & 7) == get_bits(d, at + 5, 3) && triple[1] == get_bits(d, at + 8, 8) && triple[2] == get_bits(d, at + 16, 8);
}

/* How a construct lies: the first one's first bit in the unit, the bits of one, and what a triple is made of. */
struct lie {
    size_t first, bits;
    bool (*made_of)(const uint8_t *triple, const uint8_t *d, size_t at);
};
static const struct lie lie_scte20 = { 8 * 6 + 5, 26, made_of_scte20 }, lie_ga94 = { 8 * 11, 24, made_of_ga94 };

/* A unit with cc_count 31 and one construct: how many triples come out, and how many are made of the slices behind the unit. */
static void past_end_test(const struct stream *s, const struct bytes *area)
{
    const struct lie *lie = strcmp(carriage, "GA94") == 0 ? &lie_ga94 : &lie_scte20;
    size_t made = 0, valid = 0;
    for (size_t k = 0; k < 2; k++)
        prepare(s, k, area);
    struct bytes b = picture_with_area(s, 1, area->data, area->len);
    size_t first = 8 * (s->pictures[1].slice - s->pictures[1].start) + lie->first;
    ask(2);
    const struct answer *got = &run.answers[1];
    for (size_t i = 1; i < got->n; i++) {
        valid += got->triples[i][0] >> 2 & 1;
        made += first + lie->bits * (i + 1) <= 8 * b.len && lie->made_of(got->triples[i], b.data, first + lie->bits * i);
    }
    printf("cc_count 31 with one construct | peer: %zu triples behind the first, %zu of them valid, %zu made of the bits behind it\n",
           got->n ? got->n - 1 : 0, valid, made);
    free(b.data);
}

/* ---- Special areas ---- */

static struct bytes plain;   /* the area of the pictures around the special one */
static struct run plain_run; /* the answers where all pictures have it */
static size_t cases, as_expected;

static void ask_with(const struct stream *s, const struct bytes *special)
{
    for (size_t k = 0; k < DEFECT_PICTURES; k++)
        prepare(s, k, k == DEFECT_AT ? special : &plain);
    ask(DEFECT_PICTURES);
}

static void take_plain(const struct stream *s, const struct bytes *area)
{
    plain = (struct bytes){ malloc(area->len), area->len };
    if (!plain.data)
        fail("no memory");
    memcpy(plain.data, area->data, area->len);
    ask_with(s, &plain);
    plain_run = run;
    for (size_t i = 0; i < run.notes.n; i++)
        printf("log of a legal stream: %s\n", run.notes.texts[i]);
}

/* How many of the pictures around the special one came with another answer than without it. */
static size_t others_changed(void)
{
    size_t changed = 0;
    for (size_t k = 0; k < DEFECT_PICTURES; k++)
        changed += k != DEFECT_AT && memcmp(&run.answers[k], &plain_run.answers[k], sizeof run.answers[k]) != 0;
    return changed;
}

/* What the peer said that it does not say of the plain unit. */
static void print_new_notes(void)
{
    for (size_t i = 0; i < run.notes.n; i++) {
        bool known = false;
        for (size_t j = 0; j < plain_run.notes.n; j++)
            known = known || strcmp(run.notes.texts[i], plain_run.notes.texts[j]) == 0;
        if (!known)
            printf("; log: %s", run.notes.texts[i]);
    }
}

static void observe(const struct stream *s, const struct job *job, const char *text)
{
    int number = take_number(&text), ours = take_number(&text), records = take_number(&text);
    ask_with(s, &job->spots[0].area);
    printf("%2d  %s | ours: ", number, text);
    if (ours)
        printf("refused %d", ours);
    else if (records < 0)
        printf("none");
    else
        printf("%d record%s", records, records == 1 ? "" : "s");
    printf(" | peer: ");
    print_answer(&run.answers[DEFECT_AT]);
    if (others_changed())
        printf("; other pictures changed: %zu", others_changed());
    print_new_notes();
    printf("\n");
    cases++;
    as_expected += ours == number;
}

/* A stream whose pictures have units of both kinds, in one area or by turns. */
static void show_mixed(const struct job *job, const char *text)
{
    char name[100];
    int ours = take_number(&text);
    size_t len = strcspn(text, " ");
    snprintf(name, sizeof name, "%.*s", (int)len, text);
    ask_all(stream_of(name), job);
    printf(" 0 %s | ours: %s | peer: ", text + len, ours ? "refused" : "both");
    for (size_t k = 0; k < job->n; k++) {
        printf("%s", k ? " / " : "");
        print_answer(&run.answers[k]);
    }
    printf("\n");
    cases++;
    as_expected += ours == 0;
}

/* ---- All ---- */

static void do_job(const struct job *job)
{
    static const struct stream *s;
    const char *text;
    if (begins(job->head, "carriage", &text)) {
        snprintf(carriage, sizeof carriage, "%s", text);
        printf("== Picture area, %s, read by %s\n", carriage, peer_name());
    } else if (begins(job->head, "equal", &text))
        equal_test(job, text);
    else if (begins(job->head, "tally", &text))
        print_tally(text);
    else if (begins(job->head, "fields", &text))
        show_fields(job, text);
    else if (begins(job->head, "mixed", &text))
        show_mixed(job, text);
    else if (begins(job->head, "stream", &text))
        s = stream_of(text);
    else if (begins(job->head, "taken", &text))
        print_taken(text);
    else if (!s || job->n != 1)
        fail("a line out of its place");
    else if (begins(job->head, "carried", &text))
        carried_test(s, job);
    else if (begins(job->head, "past", &text))
        past_end_test(s, &job->spots[0].area);
    else if (begins(job->head, "plain", &text))
        take_plain(s, &job->spots[0].area);
    else if (begins(job->head, "case", &text))
        observe(s, job, text);
    else
        fail("a line that cannot be read");
}

/* All frame pictures equal; or no captions at all, from a peer that does not know the carriage. Foreign units pass anyhow. */
static bool all_equal(bool knows)
{
    if (peer_tells_afd && total.afd_equal != total.afd)
        return false;
    if (!knows)
        return total.triples == 0;
    return total.lost == 0 && total.other_count == 0 && total.data_equal == total.records && total.type_equal == total.records;
}

int main(int argc, char **argv)
{
    static struct job job;
    FILE *file = argc == 2 ? fopen(argv[1], "r") : NULL;
    if (!file)
        fail("no file of areas");
    while (next_job(file, &job)) {
        do_job(&job);
        free_job(&job);
    }
    bool knows = peer_reads_scte20 || strcmp(carriage, "GA94") == 0;
    printf("SUMMARY picture area, %s, %s: frame pictures %zu, records checked %zu, equal %zu, ", carriage, peer_name(), total.pictures,
           total.records, total.data_equal < total.type_equal ? total.data_equal : total.type_equal);
    if (knows)
        printf("differences %zu", 2 * total.records - total.data_equal - total.type_equal + total.other_count);
    else
        printf("no captions handed on");
    if (peer_tells_afd)
        printf("; AFD checked %zu, equal %zu", total.afd, total.afd_equal);
    printf("\n");
    printf("SUMMARY picture area, %s, %s: areas observed %zu, our answer as RULES has it %zu\n", carriage, peer_name(), cases, as_expected);
    return !all_equal(knows) || cases == 0 || as_expected != cases;
}
