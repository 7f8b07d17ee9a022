/* layout.c: see layout.h. */
#include "layout.h"

#include <string.h>

/* ---- Caption unit (RULES, "Picture area", the table of the content) ---- */

/* Bits put one behind the other, most significant first, into bytes that are zero. */
typedef struct bit_row {
    uint8_t *bytes;
    size_t at;
} bit_row;

static void put_bit(bit_row *row, unsigned bit)
{
    if (bit & 1)
        row->bytes[row->at / 8] |= (uint8_t)(0x80 >> row->at % 8);
    row->at++;
}

static void put_bits(bit_row *row, unsigned value, unsigned count)
{
    while (count-- > 0)
        put_bit(row, value >> count);
}

/* cc_data_1 and cc_data_2 travel least significant bit first. */
static void put_data(bit_row *row, uint8_t byte)
{
    for (unsigned i = 0; i < 8; i++)
        put_bit(row, byte >> i);
}

static void put_construct(bit_row *row, const captions_record *record)
{
    put_bits(row, record->cc_priority, 2);
    put_bits(row, record->field_number, 2);
    put_bits(row, record->line_offset, 5);
    put_data(row, record->cc_data_1);
    put_data(row, record->cc_data_2);
    put_bit(row, 1); /* marker */
}

size_t layout_content_bytes(const unit_value *value)
{
    if (value->vbi_data_flag == 0)
        return 2;
    return (25 + 26 * value->n + 7) / 8;
}

size_t layout_unit(const unit_value *value, uint8_t *out)
{
    static const uint8_t start[LAYOUT_START] = {0x00, 0x00, 0x01, 0xB2};
    size_t len = LAYOUT_START + layout_content_bytes(value) + value->z;
    bit_row row = {out + LAYOUT_START, 0};

    memset(out, 0, len);
    memcpy(out, start, LAYOUT_START);
    put_bits(&row, 0x03, 8); /* user_data_type_code */
    put_bits(&row, value->reserved, 7);
    put_bit(&row, value->vbi_data_flag);
    if (value->vbi_data_flag != 0) {
        put_bits(&row, (unsigned)value->n, 5); /* cc_count */
        for (size_t i = 0; i < value->n; i++)
            put_construct(&row, &value->records[i]);
        put_bits(&row, 0, 4); /* non_real_time_video_count; alignment and stuffing are zero already */
    }
    return len;
}

/* ---- GA94 unit (RULES, "GA94", the table of the content) ---- */

size_t layout_ga94_content_bytes(const ga94_value *value)
{
    return 8 + LAYOUT_GA94_TRIPLE * value->n;
}

static void put_triple(bit_row *row, const captions_ga94_record *record)
{
    put_bits(row, 31, 5); /* marker_bits */
    put_bits(row, record->cc_valid, 1);
    put_bits(row, record->cc_type, 2);
    put_bits(row, record->cc_data_1, 8); /* as they are */
    put_bits(row, record->cc_data_2, 8);
}

size_t layout_ga94(const ga94_value *value, uint8_t *out)
{
    static const uint8_t front[] = {0x00, 0x00, 0x01, 0xB2, 0x47, 0x41, 0x39, 0x34, 0x03};
    size_t len = LAYOUT_START + layout_ga94_content_bytes(value) + value->z;
    bit_row row = {out + sizeof front, 0};

    memset(out, 0, len);
    memcpy(out, front, sizeof front); /* start code, ATSC_identifier, user_data_type_code */
    put_bits(&row, value->process_em_data_flag, 1);
    put_bits(&row, value->process_cc_data_flag, 1);
    put_bits(&row, value->additional_data_flag, 1);
    put_bits(&row, (unsigned)value->n, 5); /* cc_count */
    put_bits(&row, value->em_data, 8);
    for (size_t i = 0; i < value->n; i++)
        put_triple(&row, &value->records[i]);
    put_bits(&row, 0xFF, 8); /* marker_bits; the stuffing is zero already */
    return len;
}

/* ---- Subtitling packet (RULES, "Subtitling packet") ---- */

uint16_t layout_word(uint8_t byte)
{
    unsigned ones = 0;

    for (unsigned bit = 0; bit < 8; bit++)
        ones += byte >> bit & 1;
    return (uint16_t)(byte | (ones % 2 == 1 ? 0x100 : 0x200));
}

uint8_t layout_descriptor(const captions_slot *slot)
{
    return (uint8_t)((slot->line & 31) | (slot->reserved & 3) << 5 | (slot->field & 1) << 7);
}

void layout_sdp_checksum(uint16_t *words, size_t len)
{
    unsigned sum = 0;

    for (size_t i = LAYOUT_USER; i < len - 2; i++)
        sum += words[i] & 0xFF;
    words[len - 2] = layout_word((uint8_t)(256 - sum % 256));
}

/* CS of the words that it covers: their nine-bit sum, and b9 the inverse of b8. */
static uint16_t cs_of(const uint16_t *words, size_t count)
{
    unsigned sum = 0;

    for (size_t i = 0; i < count; i++)
        sum += words[i] & 0x1FF;
    sum %= 512;
    return (uint16_t)(sum | (sum < 0x100 ? 0x200 : 0));
}

void layout_cs(uint16_t *words, size_t len)
{
    words[len - 1] = cs_of(words + 3, len - 4);
}

static size_t put_structure(const captions_row *row, uint16_t *out)
{
    out[0] = layout_word(0x55);
    out[1] = layout_word(0x55);
    out[2] = layout_word(0x27);
    for (size_t i = 0; i < CAPTIONS_ROW_BYTES; i++)
        out[3 + i] = layout_word(row->bytes[i]);
    return LAYOUT_STRUCTURE;
}

size_t layout_packet(const packet_value *value, uint16_t *out)
{
    static const uint8_t front[] = {0x43, 0x02, 0, 0x51, 0x15, 0, 0x02}; /* DID, SDID, DC, 51, 15, LENGTH, 02 */
    size_t len = LAYOUT_STRUCTURES;

    out[0] = 0x000;
    out[1] = out[2] = 0x3FF;
    for (size_t i = 0; i < sizeof front; i++)
        out[3 + i] = layout_word(front[i]);
    for (size_t i = 0; i < CAPTIONS_SLOTS; i++) {
        uint8_t descriptor = layout_descriptor(&value->slots[i]);
        out[LAYOUT_DESCRIPTORS + i] = layout_word(descriptor);
        if (descriptor != 0)
            len += put_structure(&value->rows[i], out + len);
    }
    out[len++] = layout_word(0x74);
    out[len++] = layout_word((uint8_t)(value->counter >> 8));
    out[len++] = layout_word((uint8_t)value->counter);
    len += 2; /* SDP checksum, CS */
    out[5] = out[8] = layout_word((uint8_t)(len - 7)); /* DC and LENGTH are 13 + 45k, the packet has 20 + 45k words */
    layout_sdp_checksum(out, len);
    layout_cs(out, len);
    return len;
}

/* ---- Multipacket (RULES, "Multipacket") ---- */

/* LINE/FIELD is not among the words that NCS covers: those are NDID, NSDID, NDC and the user words. */
void layout_ncs(uint16_t *inner, size_t count)
{
    inner[LAYOUT_NUSER + count] = cs_of(inner + 1, LAYOUT_NDC + count);
}

size_t layout_inner(const captions_inner *inner, const uint16_t *words, uint16_t *out)
{
    out[0] = layout_word((uint8_t)((inner->line & 31) | (inner->field & 1) << 5));
    out[1] = layout_word((uint8_t)inner->did);
    out[2] = layout_word((uint8_t)inner->sdid);
    out[LAYOUT_NDC] = layout_word((uint8_t)inner->count);
    memcpy(out + LAYOUT_NUSER, words + inner->at, inner->count * sizeof *out);
    layout_ncs(out, inner->count);
    return LAYOUT_INNER + (size_t)inner->count;
}

size_t layout_multi_user(const multi_value *value)
{
    size_t count = 1;

    for (size_t i = 0; i < value->n; i++)
        count += LAYOUT_INNER + (size_t)value->inners[i].count;
    return count;
}

size_t layout_multi(const multi_value *value, uint16_t *out)
{
    size_t len = LAYOUT_INNERS;

    out[0] = 0x000;
    out[1] = out[2] = 0x3FF;
    out[3] = layout_word(0x43); /* DID */
    out[4] = layout_word(0x03); /* SDID */
    out[LAYOUT_DC] = layout_word((uint8_t)layout_multi_user(value));
    out[LAYOUT_USER] = layout_word((uint8_t)value->priority);
    for (size_t i = 0; i < value->n; i++)
        len += layout_inner(&value->inners[i], value->words, out + len);
    len++;
    layout_cs(out, len);
    return len;
}

/* ---- PES data field (RULES, "PES data field") ---- */

uint8_t layout_reversed(uint8_t byte)
{
    unsigned reversed = 0;

    for (unsigned i = 0; i < 8; i++)
        reversed += (byte >> i & 1u) << (7 - i);
    return (uint8_t)reversed;
}

void layout_data_unit(const captions_data_unit *unit, uint8_t *out)
{
    const captions_teletext *t = &unit->of.teletext;

    out[0] = unit->data_unit_id;
    out[1] = 0x2C; /* data_unit_length */
    if (unit->data_unit_id == LAYOUT_STUFFING_ID) {
        memcpy(out + 2, unit->of.stuffing, sizeof unit->of.stuffing);
        return;
    }
    out[2] = (uint8_t)(3 << 6 | (t->field_parity & 1) << 5 | (t->line_offset & 31)); /* behind two reserved ones */
    out[3] = 0xE4;                                                                   /* framing_code */
    for (size_t i = 0; i < CAPTIONS_ROW_BYTES; i++)
        out[4 + i] = layout_reversed(t->row[i]);
}

size_t layout_pes(const pes_value *value, uint8_t *out)
{
    out[0] = (uint8_t)value->data_identifier;
    for (size_t i = 0; i < value->n; i++)
        layout_data_unit(&value->units[i], out + 1 + LAYOUT_DATA_UNIT * i);
    return 1 + LAYOUT_DATA_UNIT * value->n;
}

/* ---- Line 21 payload (RULES, "Line 21 payload") ---- */

size_t layout_payload(const payload_value *value, uint8_t *out)
{
    size_t len = 0;

    out[len++] = (uint8_t)value->flags;
    for (size_t i = 0; i < value->m; i++) {
        const captions_access_unit *unit = &value->units[i];
        out[len++] = (uint8_t)((unit->cc_valid_1 & 1) << 7 | (unit->cc_valid_2 & 1) << 6 | (unit->padding & 63));
        out[len++] = unit->field1_data1;
        out[len++] = unit->field1_data2;
        out[len++] = unit->field2_data1;
        out[len++] = unit->field2_data2;
    }
    return len;
}
