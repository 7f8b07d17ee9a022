/*
 * wrong.c: calls of multipackets and data fields that are wrong on purpose, against the model, by the random cases of random.c.
 *
 *     wrong [COUNT]
 *
 * Each stand-in is the library's call with one thing made wrong. It must be noticed, and the library itself must not differ.
 * The status is 1 where a stand-in is noticed too seldom.
 */
#include <stdio.h>
#include <stdlib.h>

#include "multi_cases.h"
#include "pes_cases.h"
#include "wrong_calls.h"

enum { WRONG_LEAST = 20 };

static const struct {
    stand_in *of;
    size_t count;
} stand_ins[] = {{multi_read_stand_ins, MULTI_READ_STAND_INS},
                 {multi_write_stand_ins, MULTI_WRITE_STAND_INS},
                 {pes_stand_ins, PES_STAND_INS}};

enum { SORTS = sizeof stand_ins / sizeof *stand_ins };

static question q;
static outcome by_model, by_other;
static unsigned long asked, differ;

static bool differs(const calls *who)
{
    ask(who, &q, SPOIL_NOTHING, &by_other);
    return difference(&q, &by_model, &by_other) != NULL;
}

static void ask_stand_in(stand_in *s)
{
    calls wrong = library_calls;

    if (s->op != q.op)
        return;
    if (s->op == MULTI_READ)
        wrong.multi_read = s->multi_read;
    else if (s->op == MULTI_WRITE)
        wrong.multi_write = s->multi_write;
    else if (s->op == PES_READ)
        wrong.pes_read = s->read;
    else if (s->op == PES_WRITE)
        wrong.pes_write = s->write;
    else if (s->op == PES_CONVERT)
        wrong.pes_convert = s->convert;
    else
        wrong.pes_convert_value = s->convert_value;
    s->asked++;
    s->noticed += differs(&wrong);
}

/* Without null pointers, which some stand-ins would touch. */
static void run_case(dice *d)
{
    static const operation often[] = {MULTI_READ, MULTI_READ, MULTI_READ,  MULTI_WRITE,       MULTI_WRITE, MULTI_WRITE,
                                      PES_READ,   PES_READ,   PES_WRITE,   PES_CONVERT,       PES_CONVERT_VALUE};
    bool legal;

    q.op = often[below(d, sizeof often / sizeof *often)];
    q.fill = (uint16_t)roll(d);
    q.at = chance(d, 50) ? AT_END : AT_FRONT;
    q.nulls = false;
    legal = chance(d, 35);
    if (q.op == MULTI_READ || q.op == MULTI_WRITE)
        multi_case(d, &q, legal);
    else
        pes_case(d, &q, legal);
    ask(&model_calls, &q, SPOIL_NOTHING, &by_model);
    asked++;
    differ += differs(&library_calls);
    for (size_t sort = 0; sort < SORTS; sort++)
        for (size_t i = 0; i < stand_ins[sort].count; i++)
            ask_stand_in(&stand_ins[sort].of[i]);
}

/* Whether each was noticed often enough. */
static bool report(const stand_in *s, size_t count)
{
    bool good = true;

    for (; count-- > 0; s++) {
        printf("%-20s %-48s %8lu %8lu%s\n", operation_names[s->op], s->what, s->asked, s->noticed,
               s->noticed < WRONG_LEAST ? " TOO SELDOM" : "");
        good = good && s->noticed >= WRONG_LEAST;
    }
    return good;
}

int main(int argc, char **argv)
{
    unsigned long long count = argc > 1 ? strtoull(argv[1], NULL, 10) : 60000;
    size_t all = 0;
    bool good;

    harness_open();
    for (unsigned long long i = 0; i < count; i++) {
        dice d = {i * 0x2545F4914F6CDD1Du};
        snprintf(guard_asking, sizeof guard_asking, "case %llu", i);
        run_case(&d);
    }
    good = differ == 0 && arenas_are_whole();
    printf("%-20s %-48s %8s %8s\n", "wrong on purpose", "", "asked", "noticed");
    for (size_t sort = 0; sort < SORTS; sort++) {
        good = report(stand_ins[sort].of, stand_ins[sort].count) && good;
        all += stand_ins[sort].count;
    }
    printf("wrong: %zu stand-ins; the library itself, of %lu cases, differs in %lu\n", all, asked, differ);
    puts(good ? "wrong: passed" : "wrong: FAILED");
    return good ? 0 : 1;
}
