/*
 * layout.h: bytes and words made from values, as the tables of RULES lay them out.
 *
 * Nothing is judged here and no reader is used: a number that its place cannot hold loses its upper bits. So a test can
 * also lay out a value that no writer would take.
 */
#ifndef LAYOUT_H
#define LAYOUT_H

#include "captions.h"

/*
 * The values of RULES: what a unit of either kind, a packet, a multipacket, a data field, a payload and a reel of them are
 * written from, and what a run of film is given.
 */
typedef struct unit_value {
    uint32_t reserved;
    uint32_t vbi_data_flag;
    size_t n;
    size_t z;
    captions_record records[CAPTIONS_RECORDS];
} unit_value;

typedef struct ga94_value {
    uint32_t process_em_data_flag;
    uint32_t process_cc_data_flag;
    uint32_t additional_data_flag;
    uint32_t em_data;
    size_t n;
    size_t z;
    captions_ga94_record records[CAPTIONS_RECORDS];
} ga94_value;

typedef struct packet_value {
    uint32_t counter;
    captions_slot slots[CAPTIONS_SLOTS];
    captions_row rows[CAPTIONS_SLOTS];
} packet_value;

/* Inner packets, and the words among which their user words stand. Some may stand nowhere, and two may share theirs. */
enum {
    MULTI_INNERS_MAX = 13200, /* without user words they take more words than 16 bits count */
    MULTI_LENT_MAX = 66000    /* and so does one inner packet that has all of these */
};

typedef struct multi_value {
    uint32_t priority;
    size_t n;
    captions_inner inners[MULTI_INNERS_MAX];
    size_t len;
    uint16_t words[MULTI_LENT_MAX];
} multi_value;

typedef struct pes_value {
    uint32_t data_identifier;
    size_t n;
    captions_data_unit units[CAPTIONS_PES_UNITS];
} pes_value;

typedef struct payload_value {
    uint32_t flags;
    size_t m;
    captions_access_unit units[CAPTIONS_ACCESS_UNITS];
} payload_value;

/* A run of access units, and how many of them a payload gets. A run that is told by bytes can end within a unit. */
enum { REEL_UNITS_MAX = 14000 }; /* as payloads they take more bytes than 16 bits count */

typedef struct reel_value {
    uint32_t flags;
    size_t size;
    size_t n;
    size_t stray; /* how many bytes stand behind the last whole unit: 0 to 6 */
    captions_access_unit units[REEL_UNITS_MAX + 1]; /* the one behind the run has the stray bytes */
} reel_value;

/*
 * A run of film: calls to one state, which is all zero at first. A caller may also put bytes of its own into the state before a
 * call.
 */
enum { FILM_CALLS_MAX = 100 };

typedef struct film_call {
    bool puts_state;
    captions_film state; /* what is put there */
    bool closes;         /* a closing, for which nothing below is used; else a picture */
    uint32_t top_field_first;
    uint32_t repeat_first_field;
    uint32_t line_offset;
    unit_value unit;
} film_call;

typedef struct film_run {
    size_t count;
    film_call calls[FILM_CALLS_MAX];
} film_run;

enum {
    LAYOUT_START = 4,         /* 00 00 01 B2 */
    LAYOUT_CONSTRUCTS = 21,   /* the bit of a body at which the first construct begins: 8 + 7 + 1 + 5 */
    LAYOUT_CONSTRUCT = 26,    /* bits of a construct */
    LAYOUT_GA94_FLAGS = 5,    /* the byte of a GA94 body that has the flags and cc_count */
    LAYOUT_GA94_FIRST = 7,    /* the byte of a GA94 body at which the first construct begins */
    LAYOUT_GA94_TRIPLE = 3,   /* bytes of a GA94 construct */
    LAYOUT_UNIT_MAX = 4 + 104 + CAPTIONS_AREA_BYTES, /* bytes of the longest unit that layout_unit or layout_ga94 stores */
    LAYOUT_DC = 5,            /* the word of a packet or a multipacket that counts its user words */
    LAYOUT_USER = 6,          /* the word at which they begin */
    LAYOUT_DESCRIPTORS = 10,  /* the word of the first descriptor */
    LAYOUT_STRUCTURES = 15,   /* the word at which the structures begin */
    LAYOUT_STRUCTURE = 45,    /* words of a structure */
    LAYOUT_SUBTITLES = 13,    /* the fewest user words of a packet */
    LAYOUT_INNERS = 7,        /* the word of a multipacket at which the inner packets begin, behind the priority */
    LAYOUT_NDC = 3,           /* the word of an inner packet that counts its user words */
    LAYOUT_NUSER = 4,         /* the word at which they begin */
    LAYOUT_INNER = 5,         /* words of an inner packet without user words */
    LAYOUT_MULTI_USER = 255,  /* the most user words of a multipacket, its priority among them */
    LAYOUT_DATA_UNIT = 46,    /* bytes of a unit of a data field; the first begins with byte 1 */
    LAYOUT_TELETEXT_ID = 3,   /* the data_unit_id that a conversion gives */
    LAYOUT_STUFFING_ID = 255  /* that of stuffing */
};

/* Bytes of a caption unit's content: 2 with flag 0, else 25 + 26n bits in whole bytes. */
size_t layout_content_bytes(const unit_value *value);

/* Stores start code, content and stuffing, and gives their length. The caller has the room, and n is at most 31. */
size_t layout_unit(const unit_value *value, uint8_t *out);

/* The same for a GA94 unit, whose content has 8 + 3n bytes. */
size_t layout_ga94_content_bytes(const ga94_value *value);
size_t layout_ga94(const ga94_value *value, uint8_t *out);

/* The byte of a slot's descriptor. */
uint8_t layout_descriptor(const captions_slot *slot);

/* Stores a packet and gives its words, 20 to 245. */
size_t layout_packet(const packet_value *value, uint16_t *out);

/* The word of a byte: the byte, b8 its even parity, b9 the inverse of b8 (SMPTE 291M). */
uint16_t layout_word(uint8_t byte);

/* Stores anew the SDP checksum and CS of a packet of len words, 20 at least. CS of a multipacket is stored alike. */
void layout_sdp_checksum(uint16_t *words, size_t len);
void layout_cs(uint16_t *words, size_t len);

/* Stores anew NCS of an inner packet that has `count` user words, whatever its NDC says. */
void layout_ncs(uint16_t *inner, size_t count);

/* Stores an inner packet, 5 words and its user words, which are among `words`. Gives how many they are in all. */
size_t layout_inner(const captions_inner *inner, const uint16_t *words, uint16_t *out);

/* Stores a multipacket and gives its words. The caller has the room, and all user words are among those that are lent. */
size_t layout_multi(const multi_value *value, uint16_t *out);

/* How many user words it has: the priority, and the inner packets. */
size_t layout_multi_user(const multi_value *value);

/* A byte with its bits in the other order, as the teletext of a data field has it. */
uint8_t layout_reversed(uint8_t byte);

/* Stores one unit of a data field, 46 bytes: stuffing where its id is that of stuffing, else teletext, whatever its id. */
void layout_data_unit(const captions_data_unit *unit, uint8_t *out);

/* Stores a data field and gives its bytes. n is at most 31. */
size_t layout_pes(const pes_value *value, uint8_t *out);

/* Stores a payload and gives its bytes. m is at most 291. */
size_t layout_payload(const payload_value *value, uint8_t *out);

#endif
