/* alter.c: see alter.h. */
#define _POSIX_C_SOURCE 200809L /* strdup */
#include "alter.h"

#include <stdio.h>
#include <stdlib.h>
#include <string.h>

enum { FILM_ALTERED = 8 }; /* how many calls of a run are altered one by one */

typedef enum sort {
    OTHER_NUMBER,
    OTHER_PLACE,
    REFUSED_FOR_ACCEPTED,
    ACCEPTED_FOR_REFUSED,
    OTHER_DIGIT,
    OTHER_UNITS,
    OTHER_WAITING,
    ANSWER_NUMBER,
    MEMORY_BYTE,
    STATE_BYTE,
    SPOILT, /* the first of SPOILS sorts */
    SORTS = SPOILT + SPOILS
} sort;

static const char *const sort_names[SORTS] = {
    "line: another refusal number",
    "line: another place",
    "line: a refusal in place of values",
    "line: values in place of a refusal",
    "line: one digit of a value changed",
    "line: film sends a unit more, or none",
    "line: film with another slot that waits",
    "answer: one number changed",
    "answer: one byte of the lent output changed",
    "answer: one byte of a film state changed",
    "call: nothing spoilt",
    "call: a byte beside the output stored to",
    "call: an element behind the length stored to",
    "call: the last byte of the output stored to",
    "call: the input stored to",
    "call: the values to write stored to",
    "call: the film state stored to",
    "call: a byte beside the film state stored to",
};

static struct {
    unsigned long made, noticed;
} tally[SORTS];

static outcome got;

static void count(sort s, bool noticed, const char *line)
{
    tally[s].made++;
    if (noticed)
        tally[s].noticed++;
    else
        printf("NOT NOTICED (%s): %.200s\n", sort_names[s], line);
}

/* ---- Altered lines: the text is changed, parsed and asked again ---- */

static bool passes(const char *line)
{
    static vector_line altered;
    char *copy = strdup(line);
    bool same = copy != NULL && parse_line(copy, &altered) == PARSED_CASE;

    if (same) {
        ask(&library_calls, &altered.q, SPOIL_NOTHING, &got);
        same = difference(&altered.q, &altered.expected, &got) == NULL;
    }
    free(copy);
    return same;
}

/* The line with another answer. */
static void try_answer(sort s, const char *line, const char *answer)
{
    size_t front = (size_t)(strstr(line, " => ") + 4 - line);
    char *altered = malloc(front + strlen(answer) + 1);

    if (altered == NULL)
        exit(1);
    memcpy(altered, line, front);
    strcpy(altered + front, answer);
    count(s, !passes(altered), altered);
    free(altered);
}

static const char *smallest_answer(operation op)
{
    if (is_writer(op))
        return "ok len=0 out=-";
    if (op == AREA_READ || op == GA94_READ)
        return "ok none";
    if (op == MULTI_READ)
        return "ok priority=0 inners=0.0.00.00.-";
    if (op == PES_READ)
        return "ok identifier=16 units=-";
    if (op == PAYLOAD_READ)
        return "ok flags=0 m=0 units=-";
    return "ok counter=0 slots=0.0.0.0.00*42,0.0.0.0.00*42,0.0.0.0.00*42,0.0.0.0.00*42,0.0.0.0.00*42";
}

static void alter_refusal(const char *line, const vector_line *right)
{
    unsigned number = (unsigned)right->expected.numbers[0];
    unsigned long long place = right->expected.numbers[1];
    char answer[64];

    for (unsigned other = 1; other <= REFUSAL_MAX; other++) {
        if (other == number)
            continue;
        snprintf(answer, sizeof answer, "refused %u at %llu", other, place);
        try_answer(OTHER_NUMBER, line, answer);
    }
    snprintf(answer, sizeof answer, "refused %u at %llu", number, place + 1);
    try_answer(OTHER_PLACE, line, answer);
    if (place > 0) {
        snprintf(answer, sizeof answer, "refused %u at 0", number);
        try_answer(OTHER_PLACE, line, answer);
    }
    try_answer(ACCEPTED_FOR_REFUSED, line, smallest_answer(right->q.op));
}

/* Changes one digit in each value: behind a `=` first, and in what follows one of so many. */
static void alter_digits(const char *line, size_t every)
{
    char *answer = strdup(strstr(line, " => ") + 4);
    size_t since = 0;

    if (answer == NULL)
        exit(1);
    for (char *at = answer; *at != '\0'; at++) {
        char right = *at;
        bool digit = (right >= '0' && right <= '9') || (right >= 'A' && right <= 'F');
        since = right == '=' ? 0 : since + 1;
        if (!digit || (since != 1 && since % every != 0 && at[1] != '\0'))
            continue;
        *at = right == '1' ? '2' : '1';
        try_answer(OTHER_DIGIT, line, answer);
        *at = right;
    }
    free(answer);
}

/* ---- Altered lines of film: each call has an answer of its own, and the slot that waits has one ---- */

/* The line with other text in place of `len` characters of its answer. */
static void try_part(sort s, const char *line, const char *part, size_t len, const char *with)
{
    const char *answer = strstr(line, " => ") + 4;
    size_t front = (size_t)(part - answer);
    char *altered = malloc(strlen(answer) + strlen(with) + 1);

    if (altered == NULL)
        exit(1);
    memcpy(altered, answer, front);
    strcpy(altered + front, with);
    strcat(altered, part + len);
    try_answer(s, line, altered);
    free(altered);
}

static void alter_film_refusal(const char *line, const char *part, size_t len, unsigned number)
{
    char answer[64];

    for (unsigned other = 1; other <= REFUSAL_MAX; other++) {
        if (other == number)
            continue;
        snprintf(answer, sizeof answer, "refused:%u:0", other);
        try_part(OTHER_NUMBER, line, part, len, answer);
    }
    snprintf(answer, sizeof answer, "refused:%u:1", number);
    try_part(OTHER_PLACE, line, part, len, answer);
    try_part(ACCEPTED_FOR_REFUSED, line, part, len, "ok:-");
    try_part(ACCEPTED_FOR_REFUSED, line, part, len, "ok:0.0.0.00000000");
}

/* One unit more, with zeros; and none, where there was one. */
static void alter_film_units(const char *line, const char *part, size_t len)
{
    bool none = strncmp(part, "ok:-", 4) == 0;

    try_part(REFUSED_FOR_ACCEPTED, line, part, len, "refused:15:0");
    try_part(OTHER_UNITS, line, part + (none ? 3 : len), none ? 1 : 0, none ? "0.0.0.00000000" : ",0.0.0.00000000");
    if (!none)
        try_part(OTHER_UNITS, line, part, len, "ok:-");
}

static void alter_film(const char *line, const vector_line *right)
{
    const char *part = strstr(line, " => run ") + 8, *waiting = strstr(part, " waiting=") + 9;
    size_t count = right->q.film.count;

    for (size_t i = 0; i < count; i++) {
        size_t len = strcspn(part, "; ");
        unsigned number = (unsigned)right->expected.numbers[FILM_NUMBERS * i];
        if (i < FILM_ALTERED && number != 0)
            alter_film_refusal(line, part, len, number);
        else if (i < FILM_ALTERED)
            alter_film_units(line, part, len);
        part += len + 1;
    }
    if (*waiting == '-')
        try_part(OTHER_WAITING, line, waiting, 1, "0.0000");
    else
        try_part(OTHER_WAITING, line, waiting, strlen(waiting), "-");
    alter_digits(line, 7);
}

/* ---- Altered answers: what was expected is changed ---- */

static void alter_byte(const char *line, const vector_line *right, outcome *altered, size_t i)
{
    if (i >= altered->size)
        return;
    altered->memory[i] ^= 0x10;
    count(MEMORY_BYTE, difference(&right->q, altered, &got) != NULL, line);
    altered->memory[i] ^= 0x10;
}

/* Behind each call, since one that the library gave has all states; and the one that the line gives. */
static void alter_states(const char *line, const vector_line *right)
{
    static outcome altered;
    size_t last = right->q.film.count - 1;

    memcpy(&altered, &got, sizeof altered);
    for (size_t i = 0; i < 4 * right->q.film.count; i++) {
        uint8_t *state = (uint8_t *)altered.states;
        state[i] ^= 1;
        count(STATE_BYTE, difference(&right->q, &altered, &got) != NULL, line);
        state[i] ^= 1;
    }
    memcpy(&altered, &right->expected, sizeof altered);
    altered.states[last].cc_data_2 ^= 0x80;
    count(STATE_BYTE, difference(&right->q, &altered, &got) != NULL, line);
}

static void alter_expected(const char *line, const vector_line *right)
{
    static outcome altered;
    size_t written = is_writer(right->q.op) ? (size_t)right->expected.numbers[2] * element_bytes(right->q.op) : 0;

    memcpy(&altered, &right->expected, sizeof altered);
    ask(&library_calls, &right->q, SPOIL_NOTHING, &got);
    for (size_t i = 0; i < altered.count; i++) {
        altered.numbers[i] ^= 1;
        count(ANSWER_NUMBER, difference(&right->q, &altered, &got) != NULL, line);
        altered.numbers[i] ^= 1;
    }
    alter_byte(line, right, &altered, 0);
    alter_byte(line, right, &altered, altered.size / 2);
    alter_byte(line, right, &altered, altered.size - 1);
    alter_byte(line, right, &altered, written);
    if (right->q.op == FILM_RUN)
        alter_states(line, right);
}

/* ---- Spoilt calls: memory is stored to as no call may do ---- */

/* In a run the last call is spoilt. A run that ends earlier is one too, so that each call is spoilt in its turn. */
static void alter_film_calls(const char *line, const vector_line *right)
{
    static question cut;
    static outcome whole;

    memcpy(&cut, &right->q, sizeof cut);
    for (size_t calls = 1; calls <= right->q.film.count && calls <= FILM_ALTERED; calls++) {
        cut.film.count = calls;
        ask(&library_calls, &cut, SPOIL_NOTHING, &whole);
        for (int s = SPOIL_NOTHING + 1; s < SPOILS; s++)
            if (ask(&library_calls, &cut, (spoil)s, &got))
                count((sort)(SPOILT + s), difference(&cut, &whole, &got) != NULL, line);
    }
}

static void alter_calls(const char *line, const vector_line *right)
{
    for (int s = SPOIL_NOTHING + 1; s < SPOILS; s++)
        if (ask(&library_calls, &right->q, (spoil)s, &got))
            count((sort)(SPOILT + s), difference(&right->q, &right->expected, &got) != NULL, line);
    ask(&library_calls, &right->q, SPOIL_NOTHING, &got);
    count(SPOILT, difference(&right->q, &right->expected, &got) == NULL, line); /* here the unspoilt call must pass */
}

/* A reel has two calls. A line is asked by the one over structs first. */
static void alter_as_bytes(const char *line, const vector_line *right)
{
    static vector_line other;

    memcpy(&other, right, sizeof other);
    other.q.as_bytes = true;
    alter_expected(line, &other);
    alter_calls(line, &other);
}

void alter_line(const char *line, const vector_line *right)
{
    if (right->q.op == FILM_RUN) {
        alter_film(line, right);
        alter_film_calls(line, right);
    } else if (right->expected.numbers[0] != 0) {
        alter_refusal(line, right);
    } else {
        try_answer(REFUSED_FOR_ACCEPTED, line, "refused 14 at 0");
        alter_digits(line, 41);
    }
    alter_expected(line, right);
    alter_calls(line, right);
    if (right->q.op == PAYLOAD_REEL && !right->q.as_bytes)
        alter_as_bytes(line, right);
}

bool alter_report(void)
{
    bool good = true;

    printf("\n%-46s %9s %9s\n", "altered on purpose", "made", "noticed");
    for (int s = 0; s < SORTS; s++) {
        if (s == SPOILT)
            continue; /* told apart below: it is the one sort that must pass */
        printf("%-46s %9lu %9lu\n", sort_names[s], tally[s].made, tally[s].noticed);
        good = good && tally[s].made > 0 && tally[s].made == tally[s].noticed;
    }
    printf("%-46s %9lu %9lu (passed again)\n", sort_names[SPOILT], tally[SPOILT].made, tally[SPOILT].noticed);
    return good && tally[SPOILT].made > 0 && tally[SPOILT].made == tally[SPOILT].noticed;
}
