/* model_area.h: what the two models of a picture area share: its units, bits in order, and a unit put into an area. */
#ifndef MODEL_AREA_H
#define MODEL_AREA_H

#include "captions.h"

/* Our unit of an area: found or not, its first byte, and the byte behind it. */
typedef struct unit_span {
    bool found;
    size_t start;
    size_t end;
} unit_span;

/* Whether a unit with this body is one of ours. */
typedef bool ours(const uint8_t *body, size_t len);

/* Where the unit that begins at `start` ends: at the next 00 00 01 or with the area. */
size_t model_unit_end(const uint8_t *area, size_t len, size_t start);

/*
 * Whether a body is one of data groups (02, request 3): user_data_length 03, then user_data_type 09 or 0A (003, Table 1). Nothing
 * behind them is looked at. 03 alone is none.
 */
bool model_is_data_group(const uint8_t *body, size_t len);

/* The checks 1 to 4, each over the whole area before the next one. Gives the number, 0 where all hold; the place is 0. */
uint8_t model_find_unit(const uint8_t *area, size_t len, ours *is_ours, unit_span *span);

/*
 * Bits of a unit's body, most significant first. They are counted from the area's first bit. So an item that is refused has
 * as its place what `at` was before the item was taken.
 */
typedef struct bit_source {
    const uint8_t *area;
    size_t at;  /* the next bit */
    size_t end; /* the bit behind the unit's last */
} bit_source;

bit_source model_body_bits(const uint8_t *area, unit_span span);
size_t bits_left(const bit_source *bits);
unsigned take_bit(bit_source *bits);
unsigned take_bits(bit_source *bits, unsigned count);

/* What a check of a body answers: the number and the bit, or two zeros where it holds. */
captions_refusal refused_at(uint8_t number, size_t bit);
captions_refusal not_refused(void);

/* Takes all that is left, which must be zero: alignment and stuffing. 19 is the only number whose place is a wrong bit. */
captions_refusal take_zeros(bit_source *bits);

captions_written model_refusal(uint8_t number, size_t place);

/*
 * Writes `area` with the bytes of `span` given up for a unit that is laid out already. Writing a unit by itself is this with
 * nothing around it. 1 and 14 are judged on the whole result.
 */
captions_written model_put_unit(const uint8_t *area, size_t len, unit_span span, const uint8_t *unit, size_t unit_len,
                                uint8_t *out, size_t room);

#endif
