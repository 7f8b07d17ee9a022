/* compare.c: outcomes compared whole, and the guards tried out. See harness.h. */
#define _GNU_SOURCE /* fork, waitpid, sigaction */
#include <signal.h>
#include <stdio.h>
#include <string.h>
#include <sys/wait.h>
#include <unistd.h>

#include "film_runs.h"

static char text[160];

static const char *number_name(operation op, size_t i)
{
    static const char *const unit[] = {"present", "reserved", "vbi_data_flag", "n", "z"};
    static const char *const ga94[] = {"present", "process_em_data_flag", "process_cc_data_flag", "additional_data_flag",
                                       "em_data", "n", "z"};
    static const char *const multi[] = {"priority", "n"};
    static const char *const pes[] = {"data_identifier", "n"};
    static const char *const payload[] = {"flags", "m"};
    static const char *const slot[] = {"full", "line", "reserved", "field"};
    static const char *const film[FILM_NUMBERS] = {"number", "place", "m"};

    if (op == FILM_RUN)
        return film[i % FILM_NUMBERS];
    if (i < 2)
        return i == 0 ? "number" : "place";
    if (is_writer(op))
        return "len";
    if (op == AREA_READ)
        return unit[i - 2];
    if (op == GA94_READ)
        return ga94[i - 2];
    if (op == MULTI_READ)
        return multi[i - 2];
    if (op == PES_READ)
        return pes[i - 2];
    if (op == PAYLOAD_READ)
        return payload[i - 2];
    return i == 2 ? "counter" : slot[(i - 3) % 4];
}

static const char *number_difference(operation op, size_t i, uint64_t expected, uint64_t got)
{
    snprintf(text, sizeof text, "%s (number %zu of the answer) is %llu, not %llu", number_name(op, i), i,
             (unsigned long long)got, (unsigned long long)expected);
    return text;
}

static const char *memory_difference(size_t i, uint8_t expected, uint8_t got)
{
    snprintf(text, sizeof text, "byte %zu of the lent output is %02X, not %02X", i, got, expected);
    return text;
}

static uint8_t pattern_byte(const question *q, size_t i)
{
    uint16_t word = (uint16_t)(i / 2 * 37 + q->fill);
    uint8_t bytes[2];

    if (element_bytes(q->op) == 1)
        return (uint8_t)(i * 37 + q->fill);
    memcpy(bytes, &word, 2);
    return bytes[i % 2];
}

/*
 * What RULES says of every call: in a refusal all else is zero and no output has changed; in an accepted answer number and
 * place are 0, and a success changes only what it counts as written.
 */
static const char *broken_rule(const question *q, const outcome *got)
{
    size_t untouched = 0;

    if (got->numbers[0] > REFUSAL_MAX)
        return "a number that no refusal has";
    for (size_t i = 2; got->numbers[0] != 0 && i < got->count; i++)
        if (got->numbers[i] != 0)
            return "a refusal that holds a value";
    if (got->numbers[0] == 0 && got->numbers[1] != 0)
        return "an accepted answer with a place";
    if (got->numbers[0] == 0)
        untouched = is_writer(q->op) ? (size_t)got->numbers[2] * element_bytes(q->op) : got->size;
    if (untouched > got->size)
        return "a length above the room";
    for (size_t i = untouched; i < got->size; i++)
        if (got->memory[i] != pattern_byte(q, i))
            return memory_difference(i, pattern_byte(q, i), got->memory[i]);
    return NULL;
}

const char *difference(const question *q, const outcome *expected, const outcome *got)
{
    if (got->damage != NULL)
        return got->damage;
    if (expected->count != got->count || expected->size != got->size)
        return "an outcome of another kind";
    for (size_t i = 0; i < got->count; i++)
        if (expected->numbers[i] != got->numbers[i])
            return number_difference(q->op, i, expected->numbers[i], got->numbers[i]);
    if (memcmp(expected->memory, got->memory, got->size) != 0)
        for (size_t i = 0; i < got->size; i++)
            if (expected->memory[i] != got->memory[i])
                return memory_difference(i, expected->memory[i], got->memory[i]);
    return q->op == FILM_RUN ? film_difference(q, expected, got) : broken_rule(q, got);
}

uint64_t refusal_of(const question *q, const outcome *o)
{
    size_t last = q->op == FILM_RUN ? o->count - FILM_NUMBERS : 0, i = 0;

    while (i < last && o->numbers[i] == 0)
        i += FILM_NUMBERS;
    return o->numbers[i];
}

/* ---- The guards tried out ---- */

enum { TOUCHED = 77 };

static void on_touch(int signal_number)
{
    (void)signal_number;
    _exit(TOUCHED);
}

bool touches(void (*act)(void *), void *with)
{
    int status = 0;
    pid_t child = fork();

    if (child == 0) {
        struct sigaction action;
        memset(&action, 0, sizeof action);
        action.sa_handler = on_touch;
        sigaction(SIGSEGV, &action, NULL);
        sigaction(SIGBUS, &action, NULL);
        act(with);
        _exit(0);
    }
    return child > 0 && waitpid(child, &status, 0) == child && WIFEXITED(status) && WEXITSTATUS(status) == TOUCHED;
}

static void read_byte(void *at)
{
    (void)*(volatile uint8_t *)at;
}

static void store_byte(void *at)
{
    *(volatile uint8_t *)at = 1;
}

/* One piece: the one side is untouchable, and a changed byte on the other side shows. */
static bool guard_holds(arena *a, side at, size_t size)
{
    uint8_t *lent = arena_lend(a, at, size);
    uint8_t *before = lent - 1, *behind = lent + size;
    uint8_t *untouchable = at == AT_END ? behind : before;
    bool good = touches(read_byte, untouchable) && touches(store_byte, untouchable) && arena_near_is_whole(a);

    *(at == AT_END ? before : behind) ^= 1;
    good = good && !arena_near_is_whole(a) && !arena_is_whole(a);
    arena_take_back(a);
    return good && arena_is_whole(a);
}

bool guards_hold(void)
{
    static const size_t sizes[] = {0, 1, 155, 16384};
    arena a;

    arena_open(&a, 16384);
    for (size_t i = 0; i < sizeof sizes / sizeof *sizes; i++)
        if (!guard_holds(&a, AT_END, sizes[i]) || !guard_holds(&a, AT_FRONT, sizes[i]))
            return false;
    return true;
}
