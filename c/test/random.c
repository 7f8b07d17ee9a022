/*
 * random.c: random and mutated inputs, the library against the model.
 *
 *     random [COUNT [SEED [FIRST]]]
 *
 * The status is 1 where an answer or a round trip differs, fewer than a third of an operation's cases are accepted, a refusal
 * that an operation has arose at too few places, or data groups, or something of multipackets, of data fields, of reels or of
 * film, were met too seldom. Case i depends on SEED and i alone: `random 1 SEED i` asks it again and shows it, and demands of it
 * only that nothing differs. A case of film is a run; in the tables its calls are counted.
 */
#include <stdio.h>
#include <stdlib.h>
#include <string.h>

#include "cases.h"
#include "film_notes.h"
#include "groups.h"
#include "multi_notes.h"
#include "pes_notes.h"
#include "reel_notes.h"
#include "show.h"
#include "trips.h"

enum { REFUSALS = REFUSAL_MAX + 1, SHOWN_MAX = 5, SWEEP = 65536, PLACES = 2048 };

/*
 * What replacing refuses for the area's sake has a row of its own, since 1, 7, 8, 9 and 16 can come from the value too. Film's
 * pictures are in the row of runs, its closings in one of their own. A reel over structs is in the row of reels, one over bytes
 * in its own.
 */
enum { ROW_REPLACE_AREA = OPERATIONS, ROW_GA94_REPLACE_AREA, ROW_REEL_BYTES, ROW_FILM_CLOSE, ROWS };

typedef struct row {
    unsigned long cases, numbers[REFUSALS], differs, trips, trips_differ;
    bool placed[REFUSALS][PLACES]; /* where each number arose; what lies behind the last place counts as the last */
    bool later[REFUSALS];          /* whether it arose in a unit that is not the first of its area */
} row;

static row rows[ROWS];
static question q;
static outcome by_library, by_model;
static unsigned shown;

/* ---- Asking ---- */

static void show_case(const char *differs)
{
    if (shown++ >= SHOWN_MAX)
        return;
    if (differs != NULL)
        printf("DIFFERS: %s: %s\n", guard_asking, differs);
    else
        printf("%s, in which nothing differs:\n", guard_asking);
    show_question(&q, "random");
    show_outcome(&q, "library", &by_library);
    show_outcome(&q, "model", &by_model);
}

static row *row_of(void)
{
    captions_record records[CAPTIONS_RECORDS];
    captions_ga94_record ga94_records[CAPTIONS_RECORDS];

    if (q.op == AREA_REPLACE && model_calls.area_read(q.bytes, q.len, records).refusal.number != 0)
        return &rows[ROW_REPLACE_AREA];
    if (q.op == GA94_REPLACE && model_calls.ga94_read(q.bytes, q.len, ga94_records).refusal.number != 0)
        return &rows[ROW_GA94_REPLACE_AREA];
    if (q.op == PAYLOAD_REEL && q.as_bytes)
        return &rows[ROW_REEL_BYTES];
    return &rows[q.op];
}

static bool judges_area(const row *r)
{
    return r == &rows[AREA_READ] || r == &rows[ROW_REPLACE_AREA] || r == &rows[GA94_READ] || r == &rows[ROW_GA94_REPLACE_AREA];
}

/* The first byte of the unit that has this bit. The bit right behind a unit is of that unit: there an item is missing. */
static size_t unit_of(size_t bit)
{
    size_t start = 0;

    for (size_t i = 1; 8 * i < bit && i + 2 < q.len; i++)
        if (q.bytes[i] == 0x00 && q.bytes[i + 1] == 0x00 && q.bytes[i + 2] == 0x01)
            start = i;
    return start;
}

/* A bit of an area is noted as one of its unit's body, so that an item has one place wherever the unit stands. */
static void note_place(row *r, size_t number, size_t place)
{
    if (judges_area(r) && place > 0) {
        size_t start = unit_of(place);
        r->later[number] = r->later[number] || start > 0;
        place -= 8 * (start + LAYOUT_START);
    }
    r->placed[number][place < PLACES ? place : PLACES - 1] = true;
}

static void note_answer(row *r, const uint64_t *numbers)
{
    r->cases++;
    r->numbers[numbers[0]]++;
    note_place(r, numbers[0], numbers[1]);
}

static bool is_of_pes(operation op)
{
    return op == PES_READ || op == PES_WRITE || op == PES_CONVERT || op == PES_CONVERT_VALUE;
}

static void note_case(row *r)
{
    if (q.op != FILM_RUN) {
        note_answer(r, by_model.numbers);
        note_groups(&q, &by_model, r == &rows[ROW_REPLACE_AREA]);
        if (q.op == PAYLOAD_REEL)
            note_reel(&q, &by_model);
        if (q.op == MULTI_READ || q.op == MULTI_WRITE)
            note_multi(&q, &by_model);
        if (is_of_pes(q.op))
            note_pes(&q, &by_model);
        return;
    }
    for (size_t i = 0; i < q.film.count; i++)
        note_answer(&rows[q.film.calls[i].closes ? (int)ROW_FILM_CLOSE : (int)FILM_RUN], by_model.numbers + FILM_NUMBERS * i);
    note_film(&q, &by_model);
}

/* Whether a refused case has a round trip too. */
static bool has_trip_back(operation op)
{
    return op == PES_CONVERT || op == PES_CONVERT_VALUE || op == PAYLOAD_REEL || op == FILM_RUN;
}

static void run_case(void)
{
    const char *differs;
    row *r = row_of();

    ask(&library_calls, &q, SPOIL_NOTHING, &by_library);
    ask(&model_calls, &q, SPOIL_NOTHING, &by_model);
    note_case(r);
    differs = difference(&q, &by_model, &by_library);
    if (differs != NULL) {
        r->differs++;
        show_case(differs);
    } else if (by_library.numbers[0] == 0 || has_trip_back(q.op)) {
        differs = round_trip(&q, &by_library, &r->trips);
        if (differs != NULL) {
            r->trips_differ++;
            show_case(differs);
        }
    }
}

/* ---- What must have arisen ---- */

static const char *row_name(int i)
{
    if (i == ROW_FILM_CLOSE)
        return "  closings";
    if (i == ROW_REEL_BYTES)
        return "  as bytes";
    return i >= OPERATIONS ? "  area refused" : operation_names[i];
}

/*
 * At how many places each refusal that RULES has for an operation must arise at least; all others are 0. A writer has one
 * place, and an area one for what is not inside a body. A packet has few words for some numbers: nearly all must arise. In a
 * multipacket those of inner packets arise in many words. In a data field all places do: each of 31 units has one place for 7,
 * 13 and 23, two for 6 and four for 5, and its first byte is one more for 5 and 6. A conversion has the places of a packet, and
 * 0.
 */
static const uint8_t places_wanted[ROWS][REFUSALS] = {
    [AREA_READ] = {[1] = 1, [2] = 1, [3] = 1, [4] = 1, [5] = 25, [7] = 15, [8] = 30, [9] = 4, [10] = 8, [18] = 20, [19] = 60},
    [UNIT_WRITE] = {[1] = 1, [7] = 1, [8] = 1, [9] = 1, [14] = 1, [15] = 1},
    [AREA_REPLACE] = {[1] = 1, [7] = 1, [8] = 1, [9] = 1, [14] = 1, [15] = 1},
    [ROW_REPLACE_AREA] = {[1] = 1, [2] = 1, [3] = 1, [4] = 1, [5] = 25, [7] = 12, [8] = 25, [9] = 3, [10] = 8, [18] = 15,
                          [19] = 50},
    [GA94_READ] = {[1] = 1, [2] = 1, [3] = 1, [4] = 1, [5] = 25, [16] = 1, [18] = 25, [19] = 60},
    [GA94_WRITE] = {[1] = 1, [14] = 1, [15] = 1, [16] = 1},
    [GA94_REPLACE] = {[1] = 1, [14] = 1, [15] = 1, [16] = 1},
    [ROW_GA94_REPLACE_AREA] = {[1] = 1, [2] = 1, [3] = 1, [4] = 1, [5] = 25, [16] = 1, [18] = 25, [19] = 50},
    [PACKET_READ] = {[1] = 3, [2] = 3, [5] = 10, [6] = 10, [7] = 5, [11] = 100, [12] = 10, [13] = 2, [20] = 12},
    [PACKET_WRITE] = {[7] = 1, [14] = 1, [15] = 1},
    [MULTI_READ] = {[1] = 4, [2] = 3, [5] = 100, [6] = 150, [7] = 100, [11] = 200, [12] = 150, [13] = 60, [20] = 100, [26] = 150},
    [MULTI_WRITE] = {[5] = 1, [6] = 1, [7] = 1, [11] = 1, [12] = 1, [13] = 1, [14] = 1, [15] = 1, [20] = 1, [26] = 1},
    [PES_READ] = {[5] = 125, [6] = 63, [7] = 31, [13] = 31, [23] = 31, [24] = 1},
    [PES_WRITE] = {[7] = 1, [14] = 1, [15] = 1},
    [PES_CONVERT] = {[1] = 3, [2] = 3, [5] = 10, [6] = 10, [7] = 6, [11] = 100, [12] = 10, [13] = 2, [14] = 1, [20] = 12},
    [PES_CONVERT_VALUE] = {[7] = 1, [14] = 1, [15] = 1},
    [PAYLOAD_READ] = {[1] = 4, [2] = 1, [13] = 50},
    [PAYLOAD_WRITE] = {[14] = 1, [15] = 1},
    [PAYLOAD_REEL] = {[14] = 1, [15] = 1},
    [ROW_REEL_BYTES] = {[14] = 1, [15] = 1},
    [FILM_RUN] = {[7] = 1, [8] = 1, [9] = 1, [15] = 1, [21] = 1, [22] = 1},
    [ROW_FILM_CLOSE] = {[15] = 1},
};

static unsigned places_of(int i, unsigned number)
{
    unsigned count = 0;

    for (size_t place = 0; place < PLACES; place++)
        count += rows[i].placed[number][place];
    return count;
}

/* Inside a unit's body: all but 1 to 4, which are of the area as a whole. */
static bool is_inside(int i, unsigned number)
{
    return judges_area(&rows[i]) && number > 4;
}

static bool all_arose(int i)
{
    bool good = true;

    for (unsigned number = 1; number < REFUSALS; number++) {
        unsigned wanted = places_wanted[i][number], places = places_of(i, number);
        if (wanted == 0 && places > 0) {
            printf("%s: refusal %u arose, and cannot\n", row_name(i), number);
            good = false;
        } else if (places < wanted) {
            printf("%s: refusal %u arose at %u places, fewer than %u\n", row_name(i), number, places, wanted);
            good = false;
        } else if (wanted > 0 && is_inside(i, number) && !rows[i].later[number]) {
            printf("%s: refusal %u never arose behind an area's first unit\n", row_name(i), number);
            good = false;
        }
    }
    return good;
}

static bool enough_accepted(int i)
{
    unsigned long cases = rows[i].cases, accepted = rows[i].numbers[0];

    if (i == AREA_REPLACE)
        cases += rows[ROW_REPLACE_AREA].cases;
    if (i == GA94_REPLACE)
        cases += rows[ROW_GA94_REPLACE_AREA].cases;
    if ((i < OPERATIONS || i == ROW_REEL_BYTES || i == ROW_FILM_CLOSE) && (accepted == 0 || accepted < cases / 3)) {
        printf("%s: %lu of %lu cases accepted are fewer than a third\n", row_name(i), accepted, cases);
        return false;
    }
    return true;
}

/* ---- The tables ---- */

static const int order[ROWS] = {AREA_READ,     UNIT_WRITE,   AREA_REPLACE,          ROW_REPLACE_AREA,  GA94_READ,
                                GA94_WRITE,    GA94_REPLACE, ROW_GA94_REPLACE_AREA, PACKET_READ,       PACKET_WRITE,
                                MULTI_READ,    MULTI_WRITE,  PES_READ,              PES_WRITE,         PES_CONVERT,
                                PES_CONVERT_VALUE,           PAYLOAD_READ,          PAYLOAD_WRITE,     PAYLOAD_REEL,
                                ROW_REEL_BYTES,              FILM_RUN,              ROW_FILM_CLOSE};

static void print_heads(void)
{
    for (unsigned number = 1; number < REFUSALS; number++)
        printf("  no.%-2u", number);
}

static void print_count(unsigned long count)
{
    if (count == 0)
        printf(" %6s", ".");
    else
        printf(" %6lu", count);
}

static void print_numbers(void)
{
    printf("%-16s %8s %8s", "random", "cases", "accepted");
    print_heads();
    printf(" %8s %8s %8s\n", "differ", "trips", "differ");
    for (int i = 0; i < ROWS; i++) {
        const row *r = &rows[order[i]];
        printf("%-16s %8lu %8lu", row_name(order[i]), r->cases, r->numbers[0]);
        for (unsigned number = 1; number < REFUSALS; number++)
            print_count(r->numbers[number]);
        printf(" %8lu %8lu %8lu\n", r->differs, r->trips, r->trips_differ);
    }
}

static void print_places(void)
{
    printf("%-34s", "places at which each arose");
    print_heads();
    putchar('\n');
    for (int i = 0; i < ROWS; i++) {
        printf("%-34s", row_name(order[i]));
        for (unsigned number = 1; number < REFUSALS; number++)
            print_count(places_of(order[i], number));
        putchar('\n');
    }
}

/* `whole`: not some cases asked again, but a run in which everything must arise. */
static bool report(bool whole)
{
    bool good;

    print_numbers();
    print_places();
    print_groups();
    print_multi();
    print_pes();
    print_reels();
    print_film();
    good = !whole || enough_groups();
    good = (!whole || enough_multi()) && good;
    good = (!whole || enough_pes()) && good;
    good = (!whole || enough_reels()) && good;
    good = (!whole || enough_film()) && good;
    for (int i = 0; i < ROWS; i++) {
        if (whole) {
            good = all_arose(i) && good;
            good = enough_accepted(i) && good;
        }
        good = good && rows[i].differs == 0 && rows[i].trips_differ == 0;
    }
    return good;
}

int main(int argc, char **argv)
{
    unsigned long long count = argc > 1 ? strtoull(argv[1], NULL, 10) : 4000000;
    unsigned long long seed = argc > 2 ? strtoull(argv[2], NULL, 10) : 20;
    unsigned long long first = argc > 3 ? strtoull(argv[3], NULL, 10) : 0;
    bool again = argc > 3, good = true;

    harness_open();
    if (!guards_hold()) {
        puts("the guards around lent memory do not hold");
        good = false;
    }
    for (unsigned long long i = first; i < first + count; i++) {
        dice d = {seed * 0xD1342543DE82EF95u + i * 0x2545F4914F6CDD1Du};
        snprintf(guard_asking, sizeof guard_asking, "case %llu of seed %llu", i, seed);
        make_case(&d, &q);
        run_case();
        if (again && shown == 0)
            show_case(NULL);
        if (i % SWEEP == 0 && !arenas_are_whole()) {
            printf("%s: guard bytes far from a lent piece were changed\n", guard_asking);
            good = false;
        }
    }
    good = report(!again) && good;
    printf(good ? "random: passed (seed %llu)\n" : "random: FAILED (seed %llu)\n", seed);
    return good ? 0 : 1;
}
