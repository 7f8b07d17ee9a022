/* multi_values.c: see multi_values.h. */
#include "multi_values.h"

#include <string.h>

#include "cases.h"
#include "multi_faults.h"
#include "mutate.h"

enum { APART = 256 /* of the user words of one inner packet and those of the next */ };

/* ---- Legal values ---- */

/* The user words of a legal subtitling packet with up to `structures` of them. */
static uint16_t legal_subtitles(dice *d, size_t structures, uint16_t *user)
{
    uint16_t words[CAPTIONS_PACKET_WORDS];
    packet_value packet;
    size_t full = 0, count;

    legal_packet(d, &packet);
    for (size_t i = 0; i < CAPTIONS_SLOTS; i++) {
        full += packet.slots[i].full;
        if (full > structures) {
            packet.slots[i] = (captions_slot){0};
            packet.rows[i] = (captions_row){0};
        }
    }
    count = layout_packet(&packet, words) - 7;
    memcpy(user, words + LAYOUT_USER, count * sizeof *user);
    return (uint16_t)count;
}

/* Identifiers that are no subtitling packet's: often wide-screen signalling's, a multipacket's, or nearly its own. */
static void other_ids(dice *d, captions_inner *inner)
{
    static const uint8_t telling[][2] = {{0x50, 0x01}, {0x50, 0x01}, {0x43, 0x03}, {0x42, 0x02}, {0x02, 0x43},
                                         {0xC3, 0x02}, {0x43, 0x82}, {0x43, 0x00}, {0x00, 0x02}, {0x00, 0x00}};
    const uint8_t *ids = telling[below(d, sizeof telling / sizeof *telling)];
    bool known = chance(d, 70);

    inner->did = known ? ids[0] : any_byte(d);
    inner->sdid = known ? ids[1] : any_byte(d);
    if (is_subtitling(inner))
        inner->sdid = 0x03;
}

/* An inner packet of at most `most` user words. What is carried may be a subtitling packet's words too. */
static void legal_inner(dice *d, size_t most, captions_inner *inner, uint16_t *user)
{
    size_t structures = most < LAYOUT_SUBTITLES ? 0 : (most - LAYOUT_SUBTITLES) / LAYOUT_STRUCTURE;

    inner->line = (uint16_t)below(d, 32);
    inner->field = (uint16_t)below(d, 2);
    inner->did = 0x43;
    inner->sdid = 0x02;
    if (most >= LAYOUT_SUBTITLES && chance(d, 40)) {
        inner->count = legal_subtitles(d, chance(d, 40) ? 0 : structures, user);
        if (chance(d, 90))
            return;
    } else {
        size_t limit = chance(d, 80) && most > 8 ? 8 : most;
        inner->count = (uint16_t)(chance(d, 25) ? 0 : below(d, limit + 1));
        for (size_t i = 0; i < inner->count; i++)
            user[i] = layout_word(any_byte(d));
    }
    other_ids(d, inner);
}

/* How many inner packets: one or a few, and as many as there can be. */
static size_t some_n(dice *d)
{
    switch (below(d, 8)) {
    case 0:
        return 1;
    case 1:
        return chance(d, 50) ? CAPTIONS_INNERS - below(d, 2) : 1 + below(d, CAPTIONS_INNERS);
    default:
        return 2 + below(d, 5);
    }
}

static uint16_t *user_of(multi_value *value, size_t i)
{
    return value->words + value->inners[i].at;
}

/* Gives the last inner packet, if it carries anything, as many user words more as are wanted in all, as far as it can. */
static void stretch_last(dice *d, multi_value *value, size_t wanted)
{
    captions_inner *last = &value->inners[value->n - 1];

    if (is_subtitling(last))
        other_ids(d, last);
    for (size_t total = layout_multi_user(value); total < wanted && last->count < APART - 1; total++)
        user_of(value, value->n - 1)[last->count++] = layout_word(any_byte(d));
}

void legal_multi(dice *d, multi_value *to)
{
    size_t wanted = some_n(d), left = LAYOUT_MULTI_USER - 1;

    to->priority = chance(d, 50) ? (uint32_t)below(d, 4) : any_byte(d);
    for (to->n = 0; to->n < wanted; to->n++) {
        captions_inner *inner = &to->inners[to->n];
        inner->at = (uint16_t)(APART * to->n);
        legal_inner(d, left - LAYOUT_INNER * (wanted - to->n), inner, user_of(to, to->n));
        left -= LAYOUT_INNER + (size_t)inner->count;
    }
    to->len = APART * to->n;
    if (chance(d, 10))
        stretch_last(d, to, LAYOUT_MULTI_USER - below(d, 3));
}

void give_subtitles(dice *d, multi_value *value, size_t i, inner_fault fault)
{
    captions_inner *inner = &value->inners[i];
    bool without = fault == USER_COUNT && chance(d, 50);

    inner->did = 0x43;
    inner->sdid = 0x02;
    do
        inner->count = legal_subtitles(d, without ? 0 : 1 + below(d, 2), user_of(value, i));
    while (inner->count == LAYOUT_SUBTITLES && !without && chance(d, 90));
}

void fit(multi_value *value, size_t most)
{
    size_t total = layout_multi_user(value);

    for (size_t i = value->n; i-- > 0 && total > most;) {
        captions_inner *inner = &value->inners[i];
        size_t cut = total - most < inner->count ? total - most : inner->count;
        if (is_subtitling(inner))
            continue;
        inner->count = (uint16_t)(inner->count - cut);
        total -= cut;
    }
    while (total > most && value->n > 1)
        total -= LAYOUT_INNER + (size_t)value->inners[--value->n].count;
}

/* ---- Where the user words stand ---- */

/* A word that no byte has: where no user word is, none is looked at. */
static uint16_t junk(dice *d)
{
    return chance(d, 50) ? UINT16_MAX : wrong_word(d, layout_word(any_byte(d)));
}

static void put_junk(dice *d, multi_value *to, size_t count)
{
    while (count-- > 0)
        to->words[to->len++] = junk(d);
}

/* What is carried may be a part of what another inner packet has. */
static bool shares(dice *d, multi_value *value, size_t i, size_t j)
{
    captions_inner *inner = &value->inners[i];
    const captions_inner *other = &value->inners[j];

    if (i == j || is_subtitling(inner) || inner->count > other->count)
        return false;
    inner->at = (uint16_t)(other->at + below(d, (size_t)other->count - inner->count + 1));
    return true;
}

/* One behind the other in order, or in another order with something between them, and some at one place. */
static void arrange(dice *d, multi_value *value)
{
    static multi_value to;
    bool apart = chance(d, 60);
    size_t first = apart ? below(d, value->n) : 0;

    to.n = value->n;
    to.len = 0;
    memcpy(to.inners, value->inners, value->n * sizeof *value->inners);
    put_junk(d, &to, apart ? below(d, 20) : 0);
    for (size_t k = 0; k < value->n; k++) {
        size_t i = (first + k) % value->n;
        if (k > 0 && apart && chance(d, 20) && shares(d, &to, i, first))
            continue;
        to.inners[i].at = (uint16_t)to.len;
        memcpy(to.words + to.len, user_of(value, i), value->inners[i].count * sizeof *to.words);
        to.len += value->inners[i].count;
        put_junk(d, &to, apart && k + 1 < value->n ? below(d, 3) : 0);
    }
    put_junk(d, &to, apart && chance(d, 50) ? below(d, 20) : 0);
    for (size_t i = 0; i < value->n && apart; i++)
        if (to.inners[i].count == 0)
            to.inners[i].at = (uint16_t)below(d, to.len + 1);
    memcpy(value->inners, to.inners, to.n * sizeof *to.inners);
    memcpy(value->words, to.words, to.len * sizeof *to.words);
    value->len = to.len;
}

/* ---- Faults of a value ---- */

/* More user words than can be counted: just so, or so many that fewer bits count few. */
static void lengthen(dice *d, multi_value *value)
{
    captions_inner filler = {.did = 0x50, .sdid = 0x01, .at = (uint16_t)(APART * value->n)};
    size_t total = layout_multi_user(value), short_of = LAYOUT_MULTI_USER + 1 > total ? LAYOUT_MULTI_USER + 1 - total : 0;

    if (short_of > LAYOUT_INNER)
        filler.count = (uint16_t)(short_of - LAYOUT_INNER);
    if (chance(d, 40))
        filler.count = (uint16_t)(filler.count + below(d, APART - filler.count));
    for (size_t i = 0; i < filler.count; i++)
        value->words[filler.at + i] = layout_word(any_byte(d));
    value->inners[value->n++] = filler;
    value->len = APART * value->n;
}

/* As many inner packets without user words as 8 bits, or 16, cannot count; or as make so many words. */
static void add_many(dice *d, multi_value *value)
{
    size_t n = chance(d, 60) ? 256 + below(d, CAPTIONS_INNERS + 1) : 13107 + below(d, 51);

    while (value->n < n)
        value->inners[value->n++] = (captions_inner){.did = 0x50, .sdid = 0x01};
}

/* One inner packet with as many. */
static void add_long(dice *d, multi_value *value)
{
    captions_inner *inner = &value->inners[1];
    size_t count = chance(d, 70) ? 256 + below(d, 512) : UINT16_MAX - below(d, 12);

    value->n = 2;
    for (size_t i = value->inners[0].count; i < APART; i++)
        value->words[i] = junk(d);
    *inner = (captions_inner){.did = 0x50, .sdid = chance(d, 50) ? 0x01 : 0x02, .at = APART, .count = (uint16_t)count};
    if (chance(d, 50))
        inner->did = 0x43; /* so that it may be a subtitling packet, which counts no more than 255 */
    for (size_t i = 0; i < count; i++)
        value->words[APART + i] = layout_word((uint8_t)(i * 7));
    if (is_subtitling(inner))
        memcpy(value->words + APART, (const uint16_t[]){0x151, 0x115, layout_word((uint8_t)count), 0x102}, 8);
    value->len = APART + count;
}

static void spoil_range(dice *d, captions_inner *inner)
{
    switch (below(d, 4)) {
    case 0:
        inner->line = (uint16_t)number_above(d, inner->line, 31, 16);
        break;
    case 1:
        inner->field = (uint16_t)number_above(d, inner->field, 1, 16);
        break;
    case 2:
        inner->did = (uint16_t)number_above(d, inner->did, 255, 16);
        break;
    default:
        inner->sdid = (uint16_t)number_above(d, inner->sdid, 255, 16);
        break;
    }
}

/* User words that are not all there: one too few, many, or so that with 16 bits they end among the lent ones. */
static void spoil_part(dice *d, multi_value *value, captions_inner *inner)
{
    size_t behind = value->len + 1;

    if (chance(d, 30) && inner->count > 0)
        behind = 65536 + below(d, inner->count < value->len + 1 ? inner->count : value->len + 1);
    else if (chance(d, 30))
        behind += below(d, 1000);
    if (behind >= inner->count && behind - inner->count <= UINT16_MAX)
        inner->at = (uint16_t)(behind - inner->count);
    else
        inner->at = UINT16_MAX;
}

typedef enum value_spoil {
    SPOIL_PRIORITY,
    SPOIL_NONE,
    SPOIL_RANGE,
    SPOIL_RANGE_AGAIN,
    SPOIL_PART,
    SPOIL_WORD,
    SPOIL_WORD_AGAIN,
    SPOIL_LENGTH,
    SPOIL_LENGTH_AGAIN,
    SPOIL_MANY,
    SPOIL_USER, /* the first of the USER faults */
    VALUE_SPOILS = SPOIL_USER + USER_SUM - USER_SHORT + 1
} value_spoil;

/* Before the user words have their places. */
static void spoil_told(dice *d, multi_value *value, value_spoil sort, size_t target)
{
    captions_inner *inner = &value->inners[target];

    if (sort >= SPOIL_USER)
        spoil_user(d, (inner_fault)(USER_SHORT + sort - SPOIL_USER), user_of(value, target), &inner->count);
    if (sort == SPOIL_RANGE || sort == SPOIL_RANGE_AGAIN)
        spoil_range(d, inner);
    if (sort == SPOIL_LENGTH || sort == SPOIL_LENGTH_AGAIN)
        lengthen(d, value);
}

/* Behind that. */
static void spoil_lent(dice *d, multi_value *value, value_spoil sort, size_t target)
{
    captions_inner *inner = &value->inners[target];

    if (sort == SPOIL_PRIORITY)
        value->priority = (uint32_t)number_above(d, value->priority, 255, 32);
    if (sort == SPOIL_PART)
        spoil_part(d, value, inner);
    if ((sort == SPOIL_WORD || sort == SPOIL_WORD_AGAIN) && inner->count > 0 && inner->at + inner->count <= (int)value->len) {
        uint16_t *word = user_of(value, target) + below(d, inner->count);
        *word = wrong_word(d, *word);
    }
    if (sort == SPOIL_NONE)
        value->n = 0;
}

static void planned_value(dice *d, multi_value *value)
{
    size_t count = 1 + chance(d, 70), targets[2];
    value_spoil sorts[2];
    bool many = false;

    targets[0] = below(d, value->n);
    targets[1] = chance(d, 40) ? targets[0] : below(d, value->n);
    for (size_t i = 0; i < count; i++) {
        sorts[i] = (value_spoil)below(d, VALUE_SPOILS);
        many = many || sorts[i] == SPOIL_MANY;
        if (sorts[i] >= SPOIL_USER)
            give_subtitles(d, value, targets[i], (inner_fault)(USER_SHORT + sorts[i] - SPOIL_USER));
    }
    fit(value, LAYOUT_MULTI_USER - 1);
    for (size_t i = 0; i < 2 * count; i++) /* the SDP checksum last, since it is mended behind all others */
        if ((sorts[i % count] == VALUE_SPOILS - 1) == (i >= count))
            spoil_told(d, value, sorts[i % count], targets[i % count] % value->n);
    if (many && chance(d, 25))
        add_long(d, value);
    else
        arrange(d, value);
    for (size_t i = 0; i < count; i++)
        spoil_lent(d, value, sorts[i], targets[i] % (value->n > 0 ? value->n : 1));
    if (many && value->n > 0 && chance(d, 50))
        add_many(d, value);
}

void multi_write_case(dice *d, question *q, bool legal)
{
    size_t len;

    legal_multi(d, &q->multi);
    len = 7 + layout_multi_user(&q->multi);
    if (legal || chance(d, 12))
        arrange(d, &q->multi);
    else
        planned_value(d, &q->multi);
    q->room = legal ? enough_room(d, len, WORDS_MAX) : any_room(d, len, WORDS_MAX);
}
