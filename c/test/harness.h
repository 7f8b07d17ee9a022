/*
 * harness.h: one call as data. A question is what a call is given, an outcome is its answer and the memory it was lent.
 * The library and the model are asked in the same way, and outcomes are compared whole. Of film a question is a run: several
 * calls to one state.
 */
#ifndef HARNESS_H
#define HARNESS_H

#include "captions.h"
#include "guard.h"
#include "layout.h"

typedef enum operation {
    AREA_READ,
    UNIT_WRITE,
    AREA_REPLACE,
    GA94_READ,
    GA94_WRITE,
    GA94_REPLACE,
    PACKET_READ,
    PACKET_WRITE,
    MULTI_READ,
    MULTI_WRITE,
    PES_READ,
    PES_WRITE,
    PES_CONVERT,       /* from a packet's words */
    PES_CONVERT_VALUE, /* from its value */
    PAYLOAD_READ,
    PAYLOAD_WRITE,
    PAYLOAD_REEL,
    FILM_RUN,
    OPERATIONS
} operation;

enum {
    INPUT_MAX = 70000,  /* bytes of the longest input */
    OUTPUT_MAX = 90000, /* bytes of the longest lent output */
    WORDS_MAX = 1000,   /* words of the longest packet or multipacket, as an input or an output */
    FILM_NUMBERS = 3,   /* numbers of one answer of film: number, place, m */
    FILM_BYTES = CAPTIONS_FILM_UNITS * sizeof(captions_access_unit), /* bytes of the output of one call of film */
    NUMBERS_MAX = FILM_NUMBERS * FILM_CALLS_MAX,
    REFUSAL_MAX = CAPTIONS_NO_INNER, /* the highest number of a refusal */
    FILL = 11 /* the pattern of vectors/: element i is i * 37 + 11 */
};

typedef struct question {
    operation op;
    uint16_t fill;            /* what the pattern of the lent output begins with */
    side at;                  /* which side of each lent piece is untouchable */
    bool nulls;               /* the library is given a null pointer for an input or an output of no elements */
    size_t len;               /* elements of the input: bytes, or words of a packet or a multipacket */
    uint8_t bytes[INPUT_MAX]; /* an area, a data field or a payload */
    uint16_t words[WORDS_MAX];
    unit_value unit;
    ga94_value ga94;
    packet_value packet;
    multi_value multi;
    pes_value pes;
    payload_value payload;
    reel_value reel;
    bool as_bytes; /* by which call a reel is written: over bytes, or over structs */
    film_run film;
    size_t room; /* elements of a writer's output */
} question;

typedef struct outcome {
    size_t count;
    uint64_t numbers[NUMBERS_MAX]; /* number, place, and all else that the answer holds, in the order of captions.h */
    size_t size;
    uint8_t memory[OUTPUT_MAX]; /* the lent output in bytes: records, rows, inner packets, units, or what was written */
    captions_film states[FILM_CALLS_MAX]; /* of film: the state behind each call */
    bool all_states;                      /* whether all of them are known. A line of the vectors gives the last one alone. */
    const char *damage;                   /* what became of memory that was not to be stored to; null where nothing did */
} outcome;

/* The twenty calls of the library or of the model. */
typedef struct calls {
    captions_unit (*area_read)(const uint8_t *, size_t, captions_record *);
    captions_written (*unit_write)(uint32_t, uint32_t, size_t, size_t, const captions_record *, uint8_t *, size_t);
    captions_written (*area_replace)(const uint8_t *, size_t, uint32_t, uint32_t, size_t, size_t, const captions_record *,
                                     uint8_t *, size_t);
    captions_ga94_unit (*ga94_read)(const uint8_t *, size_t, captions_ga94_record *);
    captions_written (*ga94_write)(uint32_t, uint32_t, uint32_t, uint32_t, size_t, size_t, const captions_ga94_record *,
                                   uint8_t *, size_t);
    captions_written (*ga94_replace)(const uint8_t *, size_t, uint32_t, uint32_t, uint32_t, uint32_t, size_t, size_t,
                                     const captions_ga94_record *, uint8_t *, size_t);
    captions_packet (*packet_read)(const uint16_t *, size_t, captions_row *);
    captions_written (*packet_write)(uint32_t, const captions_slot *, const captions_row *, uint16_t *, size_t);
    captions_multi (*multi_read)(const uint16_t *, size_t, captions_inner *);
    captions_written (*multi_write)(uint32_t, const captions_inner *, size_t, const uint16_t *, size_t, uint16_t *, size_t);
    captions_pes (*pes_read)(const uint8_t *, size_t, captions_data_unit *);
    captions_written (*pes_write)(uint32_t, size_t, const captions_data_unit *, uint8_t *, size_t);
    captions_written (*pes_convert)(const uint16_t *, size_t, uint8_t *, size_t);
    captions_written (*pes_convert_value)(uint32_t, const captions_slot *, const captions_row *, uint8_t *, size_t);
    captions_payload (*payload_read)(const uint8_t *, size_t, captions_access_unit *);
    captions_written (*payload_write)(uint32_t, size_t, const captions_access_unit *, uint8_t *, size_t);
    captions_written (*reel_write)(uint32_t, size_t, const captions_access_unit *, size_t, uint8_t *, size_t);
    captions_written (*reel_write_bytes)(uint32_t, size_t, const uint8_t *, size_t, uint8_t *, size_t);
    captions_film_sent (*film_picture)(captions_film *, uint32_t, uint32_t, uint32_t, uint32_t, uint32_t, size_t, size_t,
                                       const captions_record *, captions_access_unit *);
    captions_film_sent (*film_close)(captions_film *, captions_access_unit *);
} calls;

extern const calls library_calls, model_calls;
extern const char *const operation_names[OPERATIONS];

/* Damage done on purpose right after a call, the last one of a run, so that a test of the tests can see that it is noticed. */
typedef enum spoil {
    SPOIL_NOTHING,
    SPOIL_BESIDE_OUTPUT, /* a byte before the output, or behind it */
    SPOIL_BEHIND_LENGTH, /* the first element behind what a writer wrote; the first of all after a refusal */
    SPOIL_LAST,          /* the last byte of the lent output */
    SPOIL_FIRST_INPUT,
    SPOIL_SECOND_INPUT,
    SPOIL_STATE,        /* a byte of a film state */
    SPOIL_BESIDE_STATE, /* a byte before it, or behind it */
    SPOILS
} spoil;

void harness_open(void);

/* Asks. True where `spoiling` found something to spoil, as SPOIL_NOTHING always does. */
bool ask(const calls *who, const question *q, spoil spoiling, outcome *got);

/* Numbers zero and memory as it is lent: an outcome to begin from. */
void outcome_begin(const question *q, outcome *o);

/* The number of the first call that was refused, of a run too; 0 where all were accepted. */
uint64_t refusal_of(const question *q, const outcome *o);

/* Null where `got` is as expected and keeps the rules that every call has; else what differs. */
const char *difference(const question *q, const outcome *expected, const outcome *got);

bool is_writer(operation op);
bool takes_input(operation op);  /* what is read: each reader has it, replacing, and converting words */
bool takes_words(operation op);  /* a packet or a multipacket as its input */
bool takes_unit(operation op);   /* the value of an SCTE 20 caption unit */
bool takes_ga94(operation op);   /* the value of a GA94 unit */
bool takes_packet(operation op); /* the value of a packet */
size_t element_bytes(operation op); /* of a writer's output: a byte, or a word */

/* All guard bytes of all arenas, not only the near ones. */
bool arenas_are_whole(void);

/* Does `act` in a process of its own, and tells whether it touched what may not be touched. */
bool touches(void (*act)(void *), void *with);

/* Whether one byte read, and one stored, on the untouchable side of a lent piece ends a program. */
bool guards_hold(void);

#endif
