/*
 * captions.h: closed captions and teletext in six carriages, read, written and replaced; and teletext and film, from one
 * of them into another.
 *
 * Picture area       the user data behind an MPEG-2 picture header, with an SCTE 20 caption unit
 * GA94               ATSC caption data in a unit of the same picture area
 * Subtitling packet  RDD 8 (OP-47), as ancillary data words
 * Multipacket        of RDD 8 too: subtitling packets and others, such as wide-screen signalling, in one packet
 * PES data field     EN 300 472, teletext for DVB; also from a subtitling packet
 * Line 21 payload    the ISMA RTP payload, what follows the RTP header; or a reel, many such payloads at once
 * Film               pictures of two or three fields, with an SCTE 20 caption unit each, into access units of that payload
 *
 * docs/RULES.md has the rules: what is not ours passes byte for byte, a unit of ours is read whole or refused with a
 * number, and nothing is repaired. docs/C-API.md is the manual.
 *
 * Every function takes every value of its arguments and returns. It keeps nothing, allocates nothing, and calls
 * nothing outside the library but C's memcpy and memset, so that any number of threads may call it.
 *
 * What a caller owes, since C cannot check it:
 *   - behind a pointer and a length stand that many bytes, words or structs; only with length 0 may the pointer be null;
 *   - behind an array of fixed size stand all of its places, and behind `film` one struct;
 *   - memory that a call may store to (STORED below) overlaps no other argument of that call.
 *
 * A refused call changes no lent memory. An accepted one changes what its description says, and nothing else.
 *
 * A run of film has a state, which the caller keeps in a struct of its own. Runs with a struct each know nothing of each
 * other.
 */
#ifndef CAPTIONS_H
#define CAPTIONS_H

#include <stdbool.h>
#include <stddef.h>
#include <stdint.h>

#ifdef __cplusplus
extern "C" {
#endif

/*
 * How memory is lent. STORED: the call may store to it, so that it overlaps no other argument. What is only read is const,
 * and may overlap what is only read. An ARRAY has all its places. C++ has no array parameter that is restrict.
 */
#ifndef __cplusplus
#define CAPTIONS_STORED restrict
#define CAPTIONS_ARRAY(name, places) name[static places]
#define CAPTIONS_STORED_ARRAY(name, places) name[restrict static places]
#else
#if defined(__GNUC__) || defined(__clang__) || defined(_MSC_VER)
#define CAPTIONS_STORED __restrict
#else
#define CAPTIONS_STORED
#endif
#define CAPTIONS_ARRAY(name, places) name[places]
#define CAPTIONS_STORED_ARRAY(name, places) *CAPTIONS_STORED name
#endif

/* ---- Refusals ---- */

/* The numbers of a refusal (RULES, "Refusals"). 0 is no refusal, and 17 and 25 are not in use. */
enum {
    CAPTIONS_ACCEPTED = 0,
    CAPTIONS_TOO_LONG = 1,         /* above 16,384 bytes of an area, 245 words of a packet, 262 of a multipacket, 1,456
                                      bytes of a payload */
    CAPTIONS_NO_START = 2,         /* no start code, flag words or flags byte where the input must begin with them */
    CAPTIONS_START_CODE = 3,       /* a 00 00 01 with no B2 behind it */
    CAPTIONS_SECOND_UNIT = 4,      /* more than one caption unit in an area, or more than one GA94 unit */
    CAPTIONS_ENDS = 5,             /* the input is over before an item is complete */
    CAPTIONS_FIXED = 6,            /* a packet's identifier (DID, SDID, 51, 15), format or footer is another; b6 or b7 of
                                      an inner packet's LINE/FIELD is not 0; or a data field's data_identifier, the
                                      reserved bits or framing code of its teletext */
    CAPTIONS_FIELD_OR_LINE = 7,    /* a record of field 0; a descriptor of line 1 to 5 or 23 to 31; in a data field, line 1
                                      to 6 or 23 to 31 */
    CAPTIONS_ORDER = 8,            /* a record of a lower field than the one before, or of the same and no higher line */
    CAPTIONS_FIFTH_PRIORITY = 9,   /* more than four records of priority 0 in a field */
    CAPTIONS_SAMPLED_VIDEO = 10,   /* the count of sampled video is not 0 */
    CAPTIONS_WORD = 11,            /* a word of more than ten bits, or with wrong parity bits */
    CAPTIONS_CHECKSUM = 12,        /* the sum of the user bytes, CS, or NCS does not come out */
    CAPTIONS_LENGTH = 13,          /* a length that fits nothing: DC, NDC, LENGTH, data_unit_length, or that of a payload;
                                      more user words to write than a multipacket counts */
    CAPTIONS_NO_ROOM = 14,         /* the lent output is shorter than the result */
    CAPTIONS_UNHOLDABLE = 15,      /* a number out of range, records under flag 0, 09 or 0A behind 03, a mismarked slot;
                                      user words that are not among the lent ones; a film state that no call leaves; a
                                      run of bytes that ends within a unit */
    CAPTIONS_ADDITIONAL_DATA = 16, /* GA94 with additional_data_flag set */
    CAPTIONS_MARKER = 18,          /* a construct's marker is not all ones, or GA94's closing byte is not FF */
    CAPTIONS_ZEROS = 19,           /* a bit of a unit's alignment or stuffing is not 0 */
    CAPTIONS_RUN_IN = 20,          /* a packet's run-in or framing code (55 55 27) is another */
    CAPTIONS_NOT_SHOWN = 21,       /* film: a record of field 3 in a picture that shows two */
    CAPTIONS_OTHER_LINE = 22,      /* film: a record on another line than the one that is carried */
    CAPTIONS_UNKNOWN_UNIT = 23,    /* a data_unit_id that is neither teletext (02, 03) nor stuffing (FF) */
    CAPTIONS_SURPLUS_UNIT = 24,    /* a byte behind the 31st unit of a data field */
    CAPTIONS_NO_INNER = 26         /* no inner packet in a multipacket, or one that is not all there */
};

/*
 * Why a call was refused. Both are 0 in an accepted one.
 *
 * The place, counted from 0, says what reading found wrong:
 *   in a unit's body   the bit of the area at which the item begins, with 19 the first bit that is not 0:
 *                      byte place / 8 of the area, and in it bit place % 8 from the most significant one
 *   in a packet        the word; with 1 and 5 the number of words
 *   in a multipacket   the word, but with 1, and with 5 of the whole of it, the number of words
 *   in a data field    the byte at which the item begins
 *   in a payload       the number of bytes
 * With 1 to 4 of an area it is 0, and so where the value to write, the length of the result or the room is refused. In
 * film it is always 0.
 */
typedef struct captions_refusal {
    uint8_t number; /* see above */
    size_t place;   /* a bit, a byte, a word or a length */
} captions_refusal;

/* What a writer answers. */
typedef struct captions_written {
    captions_refusal refusal;
    size_t len; /* how many bytes or words it stored at the front of its output; 0 in a refusal */
} captions_written;

/* ---- Picture area (SCTE 20) ---- */

enum {
    CAPTIONS_AREA_BYTES = 16384, /* the longest area, so that an output of this size is never too short for one */
    CAPTIONS_RECORDS = 31        /* the most records that a caption unit has, and a GA94 unit */
};

/* One construct of a caption unit. */
typedef struct captions_record {
    uint8_t cc_priority;  /* 0 to 3 */
    uint8_t field_number; /* 1 to 3: the display field of this picture, not the odd or even field of a frame */
    uint8_t line_offset;  /* 0 to 31 */
    uint8_t cc_data_1;    /* the two bytes as line 21 has them */
    uint8_t cc_data_2;
} captions_record;

/* What captions_area_read answers. All zero but for the refusal where it is refused, or where no caption unit stands. */
typedef struct captions_unit {
    captions_refusal refusal;
    bool present;          /* whether a caption unit stands in the area */
    uint8_t reserved;      /* the seven reserved bits as they are */
    uint8_t vbi_data_flag; /* 0 or 1 */
    size_t n;              /* how many records */
    size_t z;              /* how many zero bytes of stuffing follow the content */
} captions_unit;

/*
 * Reads the caption unit of an area: the one whose body begins with 03. With 09 or 0A behind the 03 it is a data group of
 * another syntax, and foreign as every other unit: not read, not counted, and passed byte for byte by a replacement.
 *
 * Refuses with 1, 2, 3, 4, all at 0, then 5, 7 to 10, 18, 19 from left to right in the caption unit, each at a bit of the
 * area.
 * Lent: all places of `records` are stored to where the call is accepted, the n records first and zeros behind them.
 */
captions_unit captions_area_read(const uint8_t *area, size_t len,
                                 captions_record CAPTIONS_STORED_ARRAY(records, CAPTIONS_RECORDS));

/*
 * Writes a caption unit with its start code and its stuffing at the front of `out`.
 *
 * Of `records` the first n are looked at. No number is narrowed: a reserved of 256 is refused, as 128 is.
 * Refuses with 15 (n above 31, reserved above 127, flag above 1, z above 16,384, flag 0 with records, reserved 4 with flag
 * 1 or 5 with flag 0, which make a unit of 03 09 or 03 0A); for each record in order with 15, 7, 8, 9; then with 1, then
 * with 14.
 * Lent: the first `len` bytes of `out` are stored to.
 */
captions_written captions_unit_write(uint32_t reserved, uint32_t vbi_data_flag, size_t n, size_t z,
                                     const captions_record CAPTIONS_ARRAY(records, CAPTIONS_RECORDS),
                                     uint8_t *CAPTIONS_STORED out, size_t room);

/*
 * Writes an area with another caption unit at the front of `out`. The new unit stands in the place of the old one, or
 * behind the last byte where there is none. All other units pass byte for byte.
 *
 * Refuses as captions_area_read does for the area, then as captions_unit_write does, with 1 and 14 judged on the whole
 * new area.
 * Lent: the first `len` bytes of `out` are stored to.
 */
captions_written captions_area_replace(const uint8_t *area, size_t len,
                                       uint32_t reserved, uint32_t vbi_data_flag, size_t n, size_t z,
                                       const captions_record CAPTIONS_ARRAY(records, CAPTIONS_RECORDS),
                                       uint8_t *CAPTIONS_STORED out, size_t room);

/* ---- GA94 (ATSC) in a picture area ---- */

/* One construct of a GA94 unit. */
typedef struct captions_ga94_record {
    uint8_t cc_valid;  /* 0 or 1 */
    uint8_t cc_type;   /* 0 to 3 */
    uint8_t cc_data_1; /* the two bytes as they are sent */
    uint8_t cc_data_2;
} captions_ga94_record;

/* What captions_ga94_read answers. All zero but for the refusal where it is refused, or where no GA94 unit stands. */
typedef struct captions_ga94_unit {
    captions_refusal refusal;
    bool present;                  /* whether a GA94 unit stands in the area */
    uint32_t process_em_data_flag; /* 0 or 1 */
    uint32_t process_cc_data_flag; /* 0 or 1 */
    uint32_t additional_data_flag; /* 0: set, it is refused */
    uint32_t em_data;              /* the byte as it is */
    size_t n;                      /* how many records */
    size_t z;                      /* how many zero bytes of stuffing follow the content */
} captions_ga94_unit;

/*
 * Reads the GA94 unit of an area. An SCTE 20 caption unit is a foreign one here, as a GA94 unit is for captions_area_read.
 *
 * Refuses with 1, 2, 3, 4, all at 0, then 5, 16, 18, 19 from left to right in the GA94 unit, each at a bit of the area.
 * Lent: all places of `records` are stored to where the call is accepted, the n records first and zeros behind them.
 */
captions_ga94_unit captions_ga94_read(const uint8_t *area, size_t len,
                                      captions_ga94_record CAPTIONS_STORED_ARRAY(records, CAPTIONS_RECORDS));

/*
 * Writes a GA94 unit with its start code and its stuffing at the front of `out`.
 *
 * Of `records` the first n are looked at. No number is narrowed: an em_data of 256 is refused.
 * Refuses with 15 (n above 31, a flag above 1, em_data above 255, z above 16,384), then with 16; for each record in order
 * with 15; then with 1, then with 14.
 * Lent: the first `len` bytes of `out` are stored to.
 */
captions_written captions_ga94_write(uint32_t process_em_data_flag, uint32_t process_cc_data_flag,
                                     uint32_t additional_data_flag, uint32_t em_data, size_t n, size_t z,
                                     const captions_ga94_record CAPTIONS_ARRAY(records, CAPTIONS_RECORDS),
                                     uint8_t *CAPTIONS_STORED out, size_t room);

/*
 * Writes an area with another GA94 unit at the front of `out`. The new unit stands in the place of the old one, or behind
 * the last byte where there is none. All other units pass byte for byte, an SCTE 20 caption unit too.
 *
 * Refuses as captions_ga94_read does for the area, then as captions_ga94_write does, with 1 and 14 judged on the whole
 * new area.
 * Lent: the first `len` bytes of `out` are stored to.
 */
captions_written captions_ga94_replace(const uint8_t *area, size_t len,
                                       uint32_t process_em_data_flag, uint32_t process_cc_data_flag,
                                       uint32_t additional_data_flag, uint32_t em_data, size_t n, size_t z,
                                       const captions_ga94_record CAPTIONS_ARRAY(records, CAPTIONS_RECORDS),
                                       uint8_t *CAPTIONS_STORED out, size_t room);

/* ---- Subtitling packet (RDD 8, OP-47) ---- */

enum {
    CAPTIONS_PACKET_WORDS = 245, /* the longest packet */
    CAPTIONS_SLOTS = 5,
    CAPTIONS_ROW_BYTES = 42
};

/* One slot's numbers. An empty slot has zeros throughout, and its row too. */
typedef struct captions_slot {
    uint8_t full;     /* 1 full, 0 empty */
    uint8_t line;     /* 0, or 6 to 22 */
    uint8_t reserved; /* 0 to 3 */
    uint8_t field;    /* 1 odd, 0 even: the field of the frame, not a display field number */
} captions_slot;

/* The 42 bytes of a slot's teletext row. */
typedef struct captions_row {
    uint8_t bytes[CAPTIONS_ROW_BYTES];
} captions_row;

/* What captions_packet_read answers. All zero but for the refusal where the call is refused. */
typedef struct captions_packet {
    captions_refusal refusal;
    uint32_t counter; /* 0 to 65,535 */
    captions_slot slots[CAPTIONS_SLOTS];
} captions_packet;

/*
 * Reads a packet. Each 10-bit word stands in a 16-bit number.
 *
 * Refuses with 1; 5; 2; 11; 6; 13; 6; 13; 6; 7; 13; 20; 6; 12 in the order of checks (RULES). The place is the word; with
 * 1 and 5 it is len.
 * Lent: all of `rows` is stored to where the call is accepted: the 42 bytes of each full slot, zeros for an empty one.
 */
captions_packet captions_packet_read(const uint16_t *words, size_t len,
                                     captions_row CAPTIONS_STORED_ARRAY(rows, CAPTIONS_SLOTS));

/*
 * Writes a packet at the front of `out`.
 *
 * Refuses with 15 (counter above 65,535); for each slot in order with 15, also where it is full with a descriptor of 0 or
 * empty and not all zero, and with 7; then with 14.
 * Lent: the first `len` words of `out` are stored to.
 */
captions_written captions_packet_write(uint32_t counter, const captions_slot CAPTIONS_ARRAY(slots, CAPTIONS_SLOTS),
                                       const captions_row CAPTIONS_ARRAY(rows, CAPTIONS_SLOTS),
                                       uint16_t *CAPTIONS_STORED out, size_t room);

/* ---- Multipacket (RDD 8, OP-47) ---- */

enum {
    CAPTIONS_MULTI_WORDS = 262, /* the longest multipacket: 7 words and 255 user words */
    CAPTIONS_INNERS = 50        /* the most inner packets that it has */
};

/*
 * One inner packet. Its user words are not copied: `at` and `count` say where they stand among lent words. These are the
 * words that were read, or those that a writer is lent beside its inner packets.
 */
typedef struct captions_inner {
    uint16_t line;  /* 0 to 31 */
    uint16_t field; /* 1 odd, 0 even: the field of the frame, as `field` of a slot */
    uint16_t did;   /* NDID without its parity bits, 0 to 255 */
    uint16_t sdid;  /* NSDID, the same */
    uint16_t at;    /* which of the lent words is its first user word, counted from 0 */
    uint16_t count; /* how many user words it has: NDC */
} captions_inner;

/* What captions_multi_read answers. All zero but for the refusal where the call is refused. */
typedef struct captions_multi {
    captions_refusal refusal;
    uint8_t priority; /* the byte as it is */
    size_t n;         /* how many inner packets */
} captions_multi;

/*
 * Reads a multipacket. Each 10-bit word stands in a 16-bit number. An inner packet of did 0x43 and sdid 0x02 is a
 * subtitling packet, and its user words are judged as those of one. All others are carried, a multipacket too.
 *
 * Refuses with 1; 5; 2; 11 (DID to the priority, then CS); 6; 13; 26 where no inner packet follows; for each inner packet
 * in its turn with 26 where it is not all there, 11 (LINE/FIELD to the last user word, then NCS), 6 (b6, b7), in a
 * subtitling packet 5, 6, 13, 6, 7, 13, 20, 6, 12, and 12 (NCS); last with 12 (CS). The place is the word: with 26 that
 * of LINE/FIELD, or 7 where there is no inner packet, and with 5 of a subtitling packet the one behind its last user word.
 * With 1, and with 5 of the whole, it is len.
 * Lent: all places of `inners` are stored to where the call is accepted, the n inner packets first and zeros behind them.
 */
captions_multi captions_multi_read(const uint16_t *words, size_t len,
                                   captions_inner CAPTIONS_STORED_ARRAY(inners, CAPTIONS_INNERS));

/*
 * Writes a multipacket at the front of `out`: 8 words, and 5 + count for each of the n inner packets. Their user words
 * stand among the `len` words that are lent, with their parity bits, and two may have some in common. What was read is
 * written back with the same inner packets and the very words that were read.
 *
 * No number is narrowed: a priority of 256 is refused. No word is repaired.
 * Refuses with 15 (priority above 255); with 26 (n is 0); for each inner packet in its turn with 15 (line above 31, field
 * above 1, did or sdid above 255, at + count above len), with 11 (a user word that is no byte's), and for did 0x43 with
 * sdid 0x02 with 5, 6, 13, 6, 7, 13, 20, 6, 12; then with 13 (more than 255 user words: 1, and 5 + count for each inner
 * packet), then with 14. All are at 0.
 * Lent: the first words of `out`, as many as the answer's `len`, are stored to.
 */
captions_written captions_multi_write(uint32_t priority, const captions_inner *inners, size_t n,
                                      const uint16_t *words, size_t len, uint16_t *CAPTIONS_STORED out, size_t room);

/* ---- PES data field (EN 300 472, teletext for DVB) ---- */

enum {
    CAPTIONS_PES_BYTES = 1427, /* the longest data field: 1 + 31 * 46 */
    CAPTIONS_PES_UNITS = 31    /* the most units that it has */
};

/* What a unit of teletext holds. */
typedef struct captions_teletext {
    uint8_t field_parity; /* 1 odd, the first field of the frame; 0 even, the second: as `field` of a slot */
    uint8_t line_offset;  /* 0, or 7 to 22 */
    uint8_t row[CAPTIONS_ROW_BYTES]; /* as a slot's row has them; in the stream each byte has its bits in reverse */
} captions_teletext;

/* One unit. Its data_unit_id says which of the two it holds. */
typedef struct captions_data_unit {
    uint8_t data_unit_id; /* 0x02 or 0x03: teletext; 0xFF: stuffing */
    union {
        captions_teletext teletext;
        uint8_t stuffing[44]; /* as in the stream */
    } of;
} captions_data_unit;

/* What captions_pes_read answers. All zero but for the refusal where the call is refused. */
typedef struct captions_pes {
    captions_refusal refusal;
    uint8_t data_identifier; /* 0x10 to 0x1F */
    size_t n;                /* how many units */
} captions_pes;

/*
 * Reads a data field: data_identifier, then units of 46 bytes to the end. There may be none. In which order the lines
 * come, and how often, is carried and not judged.
 *
 * Refuses from left to right, each at the byte at which its item begins, and with 5 where that item is not all there:
 * 6 (data_identifier); for each unit 24 (31 units stand before it), 23 (data_unit_id), 13 (data_unit_length is not 2C);
 * for teletext then 6 (a reserved bit is not 1) and 7 (the line), both at one byte, and 6 (the framing code is not E4).
 * The 42 bytes of a row are one item, and so are the 44 of stuffing. 24 comes before the byte there is looked at.
 * Lent: all places of `units` are stored to where the call is accepted, the n units first and zeros behind them.
 */
captions_pes captions_pes_read(const uint8_t *field, size_t len,
                               captions_data_unit CAPTIONS_STORED_ARRAY(units, CAPTIONS_PES_UNITS));

/*
 * Writes a data field at the front of `out`: 1 + 46 n bytes. Of `units` the first n are looked at, and of a unit what
 * its data_unit_id says that it holds. No number is narrowed: a data_identifier of 272 is refused.
 *
 * Refuses with 15 (data_identifier below 16 or above 31; n above 31); for each unit in order, if it is no stuffing, with
 * 15 (data_unit_id not 02 or 03, field_parity above 1, line_offset above 31), then 7 (line_offset 1 to 6 or 23 to 31);
 * then with 14. All are at 0.
 * Lent: the first `len` bytes of `out` are stored to.
 */
captions_written captions_pes_write(uint32_t data_identifier, size_t n,
                                    const captions_data_unit CAPTIONS_ARRAY(units, CAPTIONS_PES_UNITS),
                                    uint8_t *CAPTIONS_STORED out, size_t room);

/*
 * Writes a packet's teletext as a data field at the front of `out`: data_identifier 0x10, then a unit for each full slot
 * in order, with data_unit_id 0x03 and the slot's field, line and row. Counter and reserved bits are dropped, and an empty
 * slot gives nothing. k full slots give 1 + 46 k bytes, so that 231 are room enough for each packet.
 *
 * Refuses as captions_packet_read does, with its places; then with 7 for a full slot of line 6, which a packet may have
 * and a data field may not; then with 14. The last two are at 0.
 * Lent: the first `len` bytes of `out` are stored to.
 */
captions_written captions_pes_convert(const uint16_t *words, size_t len, uint8_t *CAPTIONS_STORED out, size_t room);

/*
 * The same from a packet's value, as captions_packet_read gives it and captions_packet_write takes it.
 *
 * Refuses as captions_packet_write does but for its 14, over all slots; then with 7 for a full slot of line 6; then with
 * 14, for the data field. All are at 0.
 * Lent: as for captions_pes_convert.
 */
captions_written captions_pes_convert_value(uint32_t counter, const captions_slot CAPTIONS_ARRAY(slots, CAPTIONS_SLOTS),
                                            const captions_row CAPTIONS_ARRAY(rows, CAPTIONS_SLOTS),
                                            uint8_t *CAPTIONS_STORED out, size_t room);

/* ---- Line 21 payload ---- */

enum {
    CAPTIONS_PAYLOAD_BYTES = 1456, /* the longest payload */
    CAPTIONS_ACCESS_UNITS = 291    /* the most access units that it has */
};

/* One access unit. A field's data bytes are carried whatever its flag says. */
typedef struct captions_access_unit {
    uint8_t cc_valid_1; /* 0 or 1 */
    uint8_t cc_valid_2; /* 0 or 1 */
    uint8_t padding;    /* 0 to 63 */
    uint8_t field1_data1;
    uint8_t field1_data2;
    uint8_t field2_data1;
    uint8_t field2_data2;
} captions_access_unit;

/* What captions_payload_read answers. All zero but for the refusal where the call is refused. */
typedef struct captions_payload {
    captions_refusal refusal;
    uint8_t flags; /* the flags byte as it is */
    size_t m;      /* how many access units */
} captions_payload;

/*
 * Reads a payload.
 *
 * Refuses with 2, 1, 13. The place is len.
 * Lent: all places of `units` are stored to where the call is accepted, the m units first and zeros behind them.
 */
captions_payload captions_payload_read(const uint8_t *payload, size_t len,
                                       captions_access_unit CAPTIONS_STORED_ARRAY(units, CAPTIONS_ACCESS_UNITS));

/*
 * Writes a payload at the front of `out`. Of `units` the first m are looked at.
 *
 * Refuses with 15 (flags above 255, m above 291), with 15 for each unit in order, then with 14.
 * Lent: the first `len` bytes of `out` are stored to.
 */
captions_written captions_payload_write(uint32_t flags, size_t m,
                                        const captions_access_unit CAPTIONS_ARRAY(units, CAPTIONS_ACCESS_UNITS),
                                        uint8_t *CAPTIONS_STORED out, size_t room);

/* ---- A reel of payloads ---- */

/*
 * Writes a run of n access units as payloads of `size` units each, one behind the other from the front of `out`. All have
 * the same flags byte, and the last may be shorter. A run may have any length. One of no units stores nothing, and is
 * accepted. n units take 5n bytes, and one byte more for each payload: 5n + (n + size - 1) / size in all.
 *
 * Bytes and refusals are those of single calls of captions_payload_write, each for the next `size` units and with the room
 * that is left. But one refusal refuses the whole run, and then nothing is stored.
 *
 * Refuses with 15 (flags above 255; size 0 or above 291, for a run of no units too); then for each payload in order with
 * 15 for its units in order, then with 14. So a room too short for one payload comes before a wrong unit of the next.
 * Lent: the first `len` bytes of `out` are stored to.
 */
captions_written captions_reel_write(uint32_t flags, size_t size, const captions_access_unit *units, size_t n,
                                     uint8_t *CAPTIONS_STORED out, size_t room);

/*
 * The same for a run that is told by bytes: seven for each unit, in the order of captions_access_unit, `len` of them in
 * all. An array of n structs is such a run of 7n bytes as it stands.
 *
 * Refuses as captions_reel_write does, and behind the size with 15 where the run ends within a unit (len is no multiple
 * of 7).
 * Lent: as for captions_reel_write.
 */
captions_written captions_reel_write_bytes(uint32_t flags, size_t size, const uint8_t *units, size_t len,
                                           uint8_t *CAPTIONS_STORED out, size_t room);

/* ---- Film pictures into RTP frames ---- */

enum { CAPTIONS_FILM_UNITS = 2 /* the most access units that a call sends */ };

/*
 * What is kept from call to call: an odd slot that waits for the even one after it. If all is zero, nothing waits, as at
 * the start of a run.
 */
typedef struct captions_film {
    uint8_t waiting;   /* 1 where a slot waits, else 0 */
    uint8_t cc_valid;  /* 1 where that slot holds a record's bytes, 0 where it is invalid */
    uint8_t cc_data_1; /* its two bytes, zero in an invalid slot */
    uint8_t cc_data_2;
} captions_film;

/* What a call of film answers. */
typedef struct captions_film_sent {
    captions_refusal refusal;
    size_t m; /* how many access units were sent: 0, 1 or 2; 0 in a refusal */
} captions_film_sent;

/*
 * Carries a picture: the value of its caption unit, and how it is shown. Its two display fields, three where the first is
 * repeated, are odd and even by turns, the first of them odd where top_field_first is 1. Each gives a slot: the two bytes
 * of its record, or two zeros that are marked invalid.
 *
 * A slot of the odd side waits, and goes out beside the even one that comes next: field 1 of an access unit is the odd
 * one, field 2 the even one. If none waits, an even slot goes out alone; so does a waiting one, if the next is odd too. Of
 * one that goes out alone the other field is invalid and zero. The padding is 0.
 *
 * Of `records` the first n are looked at, and no number is narrowed, as in captions_unit_write.
 * Refuses with 15 (*film is what no call leaves; top_field_first or repeat_first_field above 1; line_offset above 31);
 * then with 15, 7, 8, 9 as captions_unit_write; with 21 for any record of field 3, if repeat_first_field is 0; then with 22
 * for any record on another line than line_offset. All are at 0.
 * Lent: *film is stored to where the call is accepted, and all places of `units`, the m units first and zeros behind them.
 */
captions_film_sent captions_film_picture(captions_film *CAPTIONS_STORED film,
                                         uint32_t top_field_first, uint32_t repeat_first_field, uint32_t line_offset,
                                         uint32_t reserved, uint32_t vbi_data_flag, size_t n, size_t z,
                                         const captions_record CAPTIONS_ARRAY(records, CAPTIONS_RECORDS),
                                         captions_access_unit CAPTIONS_STORED_ARRAY(units, CAPTIONS_FILM_UNITS));

/*
 * Ends a run: a slot that waits goes out, with field 2 invalid and zero. Where none waits, nothing is sent. Then nothing
 * waits, and another run can begin.
 *
 * Refuses with 15 (*film is what no call leaves), at 0.
 * Lent: *film is stored to where the call is accepted, and all places of `units`, the unit first and zeros behind it.
 */
captions_film_sent captions_film_close(captions_film *CAPTIONS_STORED film,
                                       captions_access_unit CAPTIONS_STORED_ARRAY(units, CAPTIONS_FILM_UNITS));

#undef CAPTIONS_STORED
#undef CAPTIONS_ARRAY
#undef CAPTIONS_STORED_ARRAY

#ifdef __cplusplus
}
#endif

/* ---- Layouts ---- */

/*
 * Where the library has each field (its first byte, and its bytes) and how large each struct is. A compiler that lays
 * them out in another way must not link it. C before C11 and C++ before C++11 cannot ask.
 */
#if defined(__cplusplus) && __cplusplus >= 201103L
#define CAPTIONS_SIZE(type, size) static_assert(sizeof(type) == size, #type)
#define CAPTIONS_FIELD(type, field, at, size) \
    static_assert(offsetof(type, field) == at && sizeof(type::field) == size, #type "." #field)
#elif !defined(__cplusplus) && __STDC_VERSION__ >= 201112L
#define CAPTIONS_SIZE(type, size) _Static_assert(sizeof(type) == size, #type)
#define CAPTIONS_FIELD(type, field, at, size) \
    _Static_assert(offsetof(type, field) == at && sizeof(((type *)0)->field) == size, #type "." #field)
#endif

#ifdef CAPTIONS_FIELD
CAPTIONS_SIZE(size_t, 8);

CAPTIONS_FIELD(captions_refusal, number, 0, 1);
CAPTIONS_FIELD(captions_refusal, place, 8, 8);
CAPTIONS_SIZE(captions_refusal, 16);

CAPTIONS_FIELD(captions_written, refusal, 0, 16);
CAPTIONS_FIELD(captions_written, len, 16, 8);
CAPTIONS_SIZE(captions_written, 24);

CAPTIONS_FIELD(captions_record, cc_priority, 0, 1);
CAPTIONS_FIELD(captions_record, field_number, 1, 1);
CAPTIONS_FIELD(captions_record, line_offset, 2, 1);
CAPTIONS_FIELD(captions_record, cc_data_1, 3, 1);
CAPTIONS_FIELD(captions_record, cc_data_2, 4, 1);
CAPTIONS_SIZE(captions_record, 5);

CAPTIONS_FIELD(captions_unit, refusal, 0, 16);
CAPTIONS_FIELD(captions_unit, present, 16, 1);
CAPTIONS_FIELD(captions_unit, reserved, 17, 1);
CAPTIONS_FIELD(captions_unit, vbi_data_flag, 18, 1);
CAPTIONS_FIELD(captions_unit, n, 24, 8);
CAPTIONS_FIELD(captions_unit, z, 32, 8);
CAPTIONS_SIZE(captions_unit, 40);

CAPTIONS_FIELD(captions_ga94_record, cc_valid, 0, 1);
CAPTIONS_FIELD(captions_ga94_record, cc_type, 1, 1);
CAPTIONS_FIELD(captions_ga94_record, cc_data_1, 2, 1);
CAPTIONS_FIELD(captions_ga94_record, cc_data_2, 3, 1);
CAPTIONS_SIZE(captions_ga94_record, 4);

CAPTIONS_FIELD(captions_ga94_unit, refusal, 0, 16);
CAPTIONS_FIELD(captions_ga94_unit, present, 16, 1);
CAPTIONS_FIELD(captions_ga94_unit, process_em_data_flag, 20, 4);
CAPTIONS_FIELD(captions_ga94_unit, process_cc_data_flag, 24, 4);
CAPTIONS_FIELD(captions_ga94_unit, additional_data_flag, 28, 4);
CAPTIONS_FIELD(captions_ga94_unit, em_data, 32, 4);
CAPTIONS_FIELD(captions_ga94_unit, n, 40, 8);
CAPTIONS_FIELD(captions_ga94_unit, z, 48, 8);
CAPTIONS_SIZE(captions_ga94_unit, 56);

CAPTIONS_FIELD(captions_slot, full, 0, 1);
CAPTIONS_FIELD(captions_slot, line, 1, 1);
CAPTIONS_FIELD(captions_slot, reserved, 2, 1);
CAPTIONS_FIELD(captions_slot, field, 3, 1);
CAPTIONS_SIZE(captions_slot, 4);

CAPTIONS_FIELD(captions_row, bytes, 0, 42);
CAPTIONS_SIZE(captions_row, 42);

CAPTIONS_FIELD(captions_packet, refusal, 0, 16);
CAPTIONS_FIELD(captions_packet, counter, 16, 4);
CAPTIONS_FIELD(captions_packet, slots, 20, 20);
CAPTIONS_SIZE(captions_packet, 40);

CAPTIONS_FIELD(captions_inner, line, 0, 2);
CAPTIONS_FIELD(captions_inner, field, 2, 2);
CAPTIONS_FIELD(captions_inner, did, 4, 2);
CAPTIONS_FIELD(captions_inner, sdid, 6, 2);
CAPTIONS_FIELD(captions_inner, at, 8, 2);
CAPTIONS_FIELD(captions_inner, count, 10, 2);
CAPTIONS_SIZE(captions_inner, 12);

CAPTIONS_FIELD(captions_multi, refusal, 0, 16);
CAPTIONS_FIELD(captions_multi, priority, 16, 1);
CAPTIONS_FIELD(captions_multi, n, 24, 8);
CAPTIONS_SIZE(captions_multi, 32);

CAPTIONS_FIELD(captions_teletext, field_parity, 0, 1);
CAPTIONS_FIELD(captions_teletext, line_offset, 1, 1);
CAPTIONS_FIELD(captions_teletext, row, 2, 42);
CAPTIONS_SIZE(captions_teletext, 44);

CAPTIONS_FIELD(captions_data_unit, data_unit_id, 0, 1);
CAPTIONS_FIELD(captions_data_unit, of, 1, 44);
CAPTIONS_SIZE(captions_data_unit, 45);

CAPTIONS_FIELD(captions_pes, refusal, 0, 16);
CAPTIONS_FIELD(captions_pes, data_identifier, 16, 1);
CAPTIONS_FIELD(captions_pes, n, 24, 8);
CAPTIONS_SIZE(captions_pes, 32);

CAPTIONS_FIELD(captions_access_unit, cc_valid_1, 0, 1);
CAPTIONS_FIELD(captions_access_unit, cc_valid_2, 1, 1);
CAPTIONS_FIELD(captions_access_unit, padding, 2, 1);
CAPTIONS_FIELD(captions_access_unit, field1_data1, 3, 1);
CAPTIONS_FIELD(captions_access_unit, field1_data2, 4, 1);
CAPTIONS_FIELD(captions_access_unit, field2_data1, 5, 1);
CAPTIONS_FIELD(captions_access_unit, field2_data2, 6, 1);
CAPTIONS_SIZE(captions_access_unit, 7);

CAPTIONS_FIELD(captions_payload, refusal, 0, 16);
CAPTIONS_FIELD(captions_payload, flags, 16, 1);
CAPTIONS_FIELD(captions_payload, m, 24, 8);
CAPTIONS_SIZE(captions_payload, 32);

CAPTIONS_FIELD(captions_film, waiting, 0, 1);
CAPTIONS_FIELD(captions_film, cc_valid, 1, 1);
CAPTIONS_FIELD(captions_film, cc_data_1, 2, 1);
CAPTIONS_FIELD(captions_film, cc_data_2, 3, 1);
CAPTIONS_SIZE(captions_film, 4);

CAPTIONS_FIELD(captions_film_sent, refusal, 0, 16);
CAPTIONS_FIELD(captions_film_sent, m, 16, 8);
CAPTIONS_SIZE(captions_film_sent, 24);

#undef CAPTIONS_SIZE
#undef CAPTIONS_FIELD
#endif

#endif
