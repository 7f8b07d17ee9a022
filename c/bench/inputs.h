/* inputs.h: values and their carriages, made from counted random sequences, so that every run has the same ones. */
#ifndef INPUTS_H
#define INPUTS_H

#include "../captions.h"

/* A caption unit's value, a GA94 unit's, and an area. */
typedef struct unit_value {
    uint32_t reserved;
    uint32_t flag;
    size_t n;
    size_t z;
    captions_record records[CAPTIONS_RECORDS];
} unit_value;

typedef struct ga94_value {
    uint32_t em_flag;
    uint32_t cc_flag;
    uint32_t additional;
    uint32_t em_data;
    size_t n;
    size_t z;
    captions_ga94_record records[CAPTIONS_RECORDS];
} ga94_value;

typedef struct area_input {
    size_t len;
    uint8_t bytes[CAPTIONS_AREA_BYTES + 16]; /* also one that is too long */
} area_input;

typedef struct packet_value {
    uint32_t counter;
    captions_slot slots[CAPTIONS_SLOTS];
    captions_row rows[CAPTIONS_SLOTS];
} packet_value;

typedef struct packet_input {
    size_t len;
    uint16_t words[CAPTIONS_PACKET_WORDS + 16];
} packet_input;

/* Inner packets whose user words stand one behind the other. */
typedef struct multi_value {
    uint32_t priority;
    size_t n;
    captions_inner inners[CAPTIONS_INNERS + 4]; /* also more than can be written */
    size_t len;
    uint16_t words[CAPTIONS_MULTI_WORDS + 64];
} multi_value;

typedef struct multi_input {
    size_t len;
    uint16_t words[CAPTIONS_MULTI_WORDS + 16];
} multi_input;

typedef struct pes_value {
    uint32_t data_identifier;
    size_t n;
    captions_data_unit units[CAPTIONS_PES_UNITS];
} pes_value;

typedef struct pes_input {
    size_t len;
    uint8_t bytes[CAPTIONS_PES_BYTES + 64];
} pes_input;

typedef struct payload_value {
    uint32_t flags;
    size_t m;
    captions_access_unit units[CAPTIONS_ACCESS_UNITS];
} payload_value;

typedef struct payload_input {
    size_t len;
    uint8_t bytes[CAPTIONS_PAYLOAD_BYTES + 16];
} payload_input;

/* A run of access units, as structs and as bytes alike, and how many of them a payload gets. */
enum { REEL_UNITS = 100000, REEL_BYTES = 6 * REEL_UNITS /* what the longest takes, one unit a payload */ };

typedef struct reel_value {
    uint32_t flags;
    size_t size;
    size_t n;
    size_t stray; /* bytes behind the last whole unit, where bytes tell the run */
    const captions_access_unit *units;
} reel_value;

/* A picture of film: the state before it, how it is shown, and its caption unit's value. */
typedef struct film_value {
    captions_film state;
    uint32_t top_field_first;
    uint32_t repeat_first_field;
    uint32_t line;
    unit_value unit;
} film_value;

/* Begins the random sequence of that number. */
void restart(uint32_t number);

/* A number below n, which is not 0. */
uint32_t below(uint32_t n);

/* Legal values of n records, k structures, n inner packets, n units of teletext, m access units. */
void make_unit(unit_value *v, size_t n, size_t z);
void make_ga94(ga94_value *v, size_t n, size_t z);
void make_packet(packet_value *v, size_t k);
void make_multi(multi_value *v, size_t n, size_t user); /* each with `user` words that are carried */
void make_subtitles(multi_value *v, size_t k);          /* one, which is a subtitling packet */
void make_pes(pes_value *v, size_t n);
void make_payload(payload_value *v, size_t m);

/* n legal access units. */
void make_run(captions_access_unit *units, size_t n);

/* A picture with these flags and records of its first n display fields, before which nothing waits. */
void make_picture(film_value *v, uint32_t top_field_first, uint32_t repeat_first_field, size_t n);

/* What carries them, from the writers of plain C by the first compiler. */
void carry_unit(const unit_value *v, area_input *area);
void carry_ga94(const ga94_value *v, area_input *area);
void carry_packet(const packet_value *v, packet_input *packet);
void carry_multi(const multi_value *v, multi_input *multi);
void carry_pes(const pes_value *v, pes_input *pes);
void carry_payload(const payload_value *v, payload_input *payload);

/* Lines that a data field may have: line 6 becomes another. */
void lift_line_6(packet_value *v);

/* Puts a foreign unit with a body of that many bytes behind what stands in the area. Data groups have four each. */
enum body { RANDOM_BODY, ZERO_BODY, TEXT_BODY, GROUP_BODY, BODIES };
void add_foreign(area_input *area, size_t body, enum body kind);

#endif
