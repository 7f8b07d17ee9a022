/* multi_faults.c: see multi_faults.h. */
#include "multi_faults.h"

#include <string.h>

const char *const inner_fault_names[INNER_FAULTS] = {
    "cut header", "overrun",        "word",   "form of NCS", "b6 or b7", "under 13 user words", "51 15", "LENGTH",
    "format",     "descriptor line", "NDC against k", "run-in",      "footer",   "SDP checksum",        "NCS"};

const char *const outer_fault_names[OUTER_FAULTS] = {"too long", "too short", "flag",           "word",         "form of CS",
                                                     "DID, SDID", "DC",       "no inner packet", "inner packet", "CS"};

bool is_user_fault(inner_fault fault)
{
    return fault >= USER_SHORT && fault <= USER_SUM;
}

bool is_subtitling(const captions_inner *inner)
{
    return inner->did == 0x43 && inner->sdid == 0x02;
}

/* ---- Making ---- */

enum {
    LENGTH_AT = 2, /* user words of a subtitling packet */
    FORMAT_AT = 3,
    DESCRIPTORS_AT = 4,
    STRUCTURES_AT = 9,
    FOOTER_BACK = 4 /* the footer is the fourth user word from the end */
};

uint16_t wrong_word(dice *d, uint16_t word)
{
    static const uint16_t bits[] = {0x100, 0x200, 0x300, 0x400, 0x8000};

    return word ^ bits[below(d, sizeof bits / sizeof *bits)];
}

static uint16_t other_word(dice *d, uint16_t word)
{
    uint8_t byte = (uint8_t)word;

    return layout_word((uint8_t)(chance(d, 60) ? byte ^ 1u << below(d, 8) : byte + 1 + below(d, 255)));
}

static void mend_sum(uint16_t *user, size_t count)
{
    unsigned sum = 0;

    if (count == 0)
        return;
    for (size_t i = 0; i + 1 < count; i++)
        sum += user[i] & 0xFF;
    user[count - 1] = layout_word((uint8_t)(256 - sum % 256));
}

/* A descriptor that is full, or empty; some other one where none is. */
static uint16_t *some_descriptor(dice *d, uint16_t *user, bool full)
{
    size_t first = below(d, CAPTIONS_SLOTS);

    for (size_t i = 0; i < CAPTIONS_SLOTS; i++) {
        uint16_t *descriptor = user + DESCRIPTORS_AT + (first + i) % CAPTIONS_SLOTS;
        if (((*descriptor & 0xFF) != 0) == full)
            return descriptor;
    }
    return user + DESCRIPTORS_AT + first;
}

static void spoil_line(dice *d, uint16_t *user)
{
    static const uint8_t lines[] = {1, 2, 3, 4, 5, 23, 24, 30, 31};
    uint16_t *descriptor = some_descriptor(d, user, true);

    *descriptor = layout_word((uint8_t)((*descriptor & 0xE0) | lines[below(d, sizeof lines)]));
}

/* Another number of user words, or of descriptors that are not 0. */
static void spoil_count(dice *d, uint16_t *user, uint16_t *count)
{
    switch (below(d, 4)) {
    case 0:
        *some_descriptor(d, user, true) = layout_word(0x00);
        break;
    case 1:
        *some_descriptor(d, user, false) = layout_word((const uint8_t[]){0x80, 0x20, 0x06, 0x96}[below(d, 4)]);
        break;
    default: /* one word more, before the footer */
        memmove(user + *count - FOOTER_BACK + 1, user + *count - FOOTER_BACK, FOOTER_BACK * sizeof *user);
        ++*count;
        user[LENGTH_AT] = layout_word((uint8_t)*count);
        break;
    }
}

/* One of the three words before a row. Where there is no structure, what stands there is the footer. */
static void spoil_run_in(dice *d, uint16_t *user, size_t count)
{
    size_t structures = (count - LAYOUT_SUBTITLES) / LAYOUT_STRUCTURE;
    size_t at = STRUCTURES_AT + (structures > 0 ? LAYOUT_STRUCTURE * below(d, structures) + below(d, 3) : 0);

    user[at] = other_word(d, user[at]);
}

void spoil_user(dice *d, inner_fault fault, uint16_t *user, uint16_t *count)
{
    uint16_t *word = NULL;

    if (*count < LAYOUT_SUBTITLES)
        return; /* too short already */
    if (fault == USER_SHORT)
        *count = (uint16_t)(chance(d, 50) ? LAYOUT_SUBTITLES - 1 : below(d, LAYOUT_SUBTITLES));
    if (fault == USER_IDENTIFIER)
        word = &user[below(d, 2)];
    if (fault == USER_LENGTH)
        word = &user[LENGTH_AT];
    if (fault == USER_FORMAT)
        word = &user[FORMAT_AT];
    if (fault == USER_LINE)
        spoil_line(d, user);
    if (fault == USER_COUNT)
        spoil_count(d, user, count);
    if (fault == USER_RUN_IN)
        spoil_run_in(d, user, *count);
    if (fault == USER_FOOTER)
        word = &user[*count - FOOTER_BACK];
    if (word != NULL)
        *word = other_word(d, *word);
    mend_sum(user, *count);
    if (fault == USER_SUM)
        user[*count - 1] = other_word(d, user[*count - 1]);
}

/* ---- Finding ---- */

static bool is_line(unsigned line)
{
    return line == 0 || (line >= 6 && line <= 22);
}

void find_user_faults(const uint16_t *user, size_t count, bool found[INNER_FAULTS])
{
    size_t structures = 0;
    unsigned sum = 0;

    found[USER_SHORT] = count < LAYOUT_SUBTITLES;
    if (count < LAYOUT_SUBTITLES)
        return;
    found[USER_IDENTIFIER] = (user[0] & 0xFF) != 0x51 || (user[1] & 0xFF) != 0x15;
    found[USER_LENGTH] = (user[LENGTH_AT] & 0xFF) != count;
    found[USER_FORMAT] = (user[FORMAT_AT] & 0xFF) != 0x02;
    for (size_t i = DESCRIPTORS_AT; i < STRUCTURES_AT; i++) {
        structures += (user[i] & 0xFF) != 0;
        found[USER_LINE] = found[USER_LINE] || !is_line(user[i] % 32);
    }
    found[USER_COUNT] = count != LAYOUT_SUBTITLES + LAYOUT_STRUCTURE * structures;
    for (size_t i = 0; i < count; i++)
        sum += user[i] & 0xFF;
    found[USER_SUM] = sum % 256 != 0;
    if (found[USER_COUNT])
        return;
    for (size_t i = STRUCTURES_AT; i + FOOTER_BACK < count; i += LAYOUT_STRUCTURE)
        found[USER_RUN_IN] = found[USER_RUN_IN] || (user[i] & 0xFF) != 0x55 || (user[i + 1] & 0xFF) != 0x55 ||
                             (user[i + 2] & 0xFF) != 0x27;
    found[USER_FOOTER] = (user[count - FOOTER_BACK] & 0xFF) != 0x74;
}

static bool is_formed(uint16_t cs)
{
    return cs <= 1023 && (cs >> 9 & 1) != (cs >> 8 & 1);
}

/* Whether nine bits of CS are another sum. */
static bool is_other_sum(const uint16_t *words, size_t count, uint16_t cs)
{
    unsigned sum = 0;

    for (size_t i = 0; i < count; i++)
        sum += words[i] & 0x1FF;
    return sum % 512 != (cs & 0x1FF);
}

static bool has_wrong_word(const uint16_t *words, size_t from, size_t end)
{
    for (size_t i = from; i < end; i++)
        if (words[i] != layout_word((uint8_t)words[i]))
            return true;
    return false;
}

size_t find_inner_faults(const uint16_t *words, size_t at, size_t end, bool found[INNER_FAULTS])
{
    size_t left = end - at, count, ncs;

    memset(found, 0, INNER_FAULTS * sizeof *found);
    found[INNER_CUT] = left < LAYOUT_NUSER;
    if (left < LAYOUT_NUSER)
        return end;
    found[INNER_BITS] = (words[at] & 0xC0) != 0;
    count = words[at + LAYOUT_NDC] & 0xFF;
    found[INNER_OVERRUN] = left < LAYOUT_INNER + count;
    if (left < LAYOUT_INNER + count) {
        found[INNER_WORD] = has_wrong_word(words, at, end);
        return end;
    }
    ncs = at + LAYOUT_NUSER + count;
    found[INNER_WORD] = has_wrong_word(words, at, ncs);
    found[INNER_NCS_FORM] = !is_formed(words[ncs]);
    if ((words[at + 1] & 0xFF) == 0x43 && (words[at + 2] & 0xFF) == 0x02)
        find_user_faults(words + at + LAYOUT_NUSER, count, found);
    found[INNER_NCS] = is_other_sum(words + at + 1, LAYOUT_NDC + count, words[ncs]);
    return ncs + 1;
}

void find_outer_faults(const uint16_t *words, size_t len, bool found[OUTER_FAULTS])
{
    memset(found, 0, OUTER_FAULTS * sizeof *found);
    found[OUTER_LONG] = len > CAPTIONS_MULTI_WORDS;
    found[OUTER_SHORT] = len <= LAYOUT_INNERS;
    for (size_t i = 0; i < 3 && i < len; i++)
        found[OUTER_FLAG] = found[OUTER_FLAG] || words[i] != (i == 0 ? 0x000 : 0x3FF);
    if (len <= LAYOUT_INNERS)
        return;
    found[OUTER_WORD] = has_wrong_word(words, 3, LAYOUT_INNERS);
    found[OUTER_CS_FORM] = !is_formed(words[len - 1]);
    found[OUTER_ID] = (words[3] & 0xFF) != 0x43 || (words[4] & 0xFF) != 0x03;
    found[OUTER_DC] = (words[LAYOUT_DC] & 0xFF) != len - 7;
    found[OUTER_NONE] = len == LAYOUT_INNERS + 1;
    found[OUTER_CS] = is_other_sum(words + 3, len - 4, words[len - 1]);
}

bool can_be_in_one(inner_fault first, inner_fault later)
{
    if (first >= later || first == INNER_CUT)
        return false;
    if (first == INNER_OVERRUN)
        return later == INNER_WORD || later == INNER_BITS;
    if (first == USER_SHORT)
        return later == INNER_NCS;
    return first != USER_COUNT || (later != USER_RUN_IN && later != USER_FOOTER);
}
