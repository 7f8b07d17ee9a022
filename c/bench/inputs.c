/* inputs.c: see inputs.h. */
#include "inputs.h"

#include "programs.h"

#include <string.h>

static uint64_t state = 1;

void restart(uint32_t number)
{
    state = 0x9E3779B97F4A7C15 * (number + UINT64_C(1));
}

uint32_t below(uint32_t n)
{
    state ^= state << 13;
    state ^= state >> 7;
    state ^= state << 17;
    return (uint32_t)((state >> 32) * n >> 32);
}

static uint8_t byte(void)
{
    return (uint8_t)below(256);
}

/*
 * Lines rise by one within each field, which leaves room for 31 records in one field. Reserved is not 4, which with
 * flag 1 would begin a data group.
 */
void make_unit(unit_value *v, size_t n, size_t z)
{
    memset(v, 0, sizeof *v);
    v->reserved = (5 + below(127)) % 128;
    v->flag = 1;
    v->n = n;
    v->z = z;
    uint8_t field = 1;
    uint8_t line = 0;
    uint8_t urgent = 0;
    for (size_t i = 0; i < n; i++) {
        if (field < 3 && below(12) == 0) {
            field++;
            line = 0;
            urgent = 0;
        }
        uint8_t priority = (uint8_t)(urgent < 4 ? below(4) : 1 + below(3));
        urgent += priority == 0;
        v->records[i] = (captions_record){priority, field, line++, byte(), byte()};
    }
}

void make_ga94(ga94_value *v, size_t n, size_t z)
{
    memset(v, 0, sizeof *v);
    v->em_flag = below(2);
    v->cc_flag = below(2);
    v->em_data = byte();
    v->n = n;
    v->z = z;
    for (size_t i = 0; i < n; i++) {
        v->records[i] = (captions_ga94_record){(uint8_t)below(2), (uint8_t)below(4), byte(), byte()};
    }
}

void make_packet(packet_value *v, size_t k)
{
    memset(v, 0, sizeof *v);
    v->counter = below(65536);
    for (size_t i = 0; i < CAPTIONS_SLOTS; i++) {
        /* Which slots are full is drawn, but k of them in all. */
        if (below((uint32_t)(CAPTIONS_SLOTS - i)) >= k) {
            continue;
        }
        k--;
        v->slots[i] = (captions_slot){1, (uint8_t)(6 + below(17)), (uint8_t)below(4), (uint8_t)below(2)};
        for (size_t j = 0; j < CAPTIONS_ROW_BYTES; j++) {
            v->rows[i].bytes[j] = byte();
        }
    }
}

void lift_line_6(packet_value *v)
{
    for (size_t i = 0; i < CAPTIONS_SLOTS; i++) {
        if (v->slots[i].line == 6) {
            v->slots[i].line = 7;
        }
    }
}

static captions_inner inner_at(uint16_t did, uint16_t sdid, size_t at, size_t count)
{
    return (captions_inner){(uint16_t)below(32), (uint16_t)below(2), did, sdid, (uint16_t)at, (uint16_t)count};
}

/* Wide-screen signalling. Its words are those of bytes. */
void make_multi(multi_value *v, size_t n, size_t user)
{
    memset(v, 0, sizeof *v);
    v->priority = byte();
    for (v->n = 0; v->n < n; v->n++) {
        v->inners[v->n] = inner_at(0x50, 0x01, v->len, user);
        for (size_t i = 0; i < user; i++) {
            uint16_t low = byte();
            uint16_t even = (uint16_t)(0x6996 >> ((low ^ low >> 4) & 15) & 1);
            v->words[v->len++] = (uint16_t)(low | even << 8 | !even << 9);
        }
    }
}

void make_subtitles(multi_value *v, size_t k)
{
    static packet_value packet;
    static packet_input words;
    make_packet(&packet, k);
    carry_packet(&packet, &words);
    memset(v, 0, sizeof *v);
    v->priority = byte();
    v->n = 1;
    v->len = words.len - 7;
    v->inners[0] = inner_at(0x43, 0x02, 0, v->len);
    memcpy(v->words, words.words + 6, v->len * sizeof v->words[0]);
}

void make_pes(pes_value *v, size_t n)
{
    memset(v, 0, sizeof *v);
    v->data_identifier = 0x10 + below(16);
    v->n = n;
    for (size_t i = 0; i < n; i++) {
        captions_teletext *teletext = &v->units[i].of.teletext;
        v->units[i].data_unit_id = (uint8_t)(2 + below(2));
        teletext->field_parity = (uint8_t)below(2);
        teletext->line_offset = (uint8_t)(7 + below(16));
        for (size_t j = 0; j < CAPTIONS_ROW_BYTES; j++) {
            teletext->row[j] = byte();
        }
    }
}

void make_run(captions_access_unit *units, size_t n)
{
    for (size_t i = 0; i < n; i++) {
        units[i] = (captions_access_unit){
            (uint8_t)below(2), (uint8_t)below(2), (uint8_t)below(64), byte(), byte(), byte(), byte(),
        };
    }
}

void make_payload(payload_value *v, size_t m)
{
    memset(v, 0, sizeof *v);
    v->flags = byte();
    v->m = m;
    make_run(v->units, m);
}

void make_picture(film_value *v, uint32_t top_field_first, uint32_t repeat_first_field, size_t n)
{
    memset(v, 0, sizeof *v);
    v->top_field_first = top_field_first;
    v->repeat_first_field = repeat_first_field;
    v->line = below(32);
    make_unit(&v->unit, 0, 0);
    v->unit.n = n;
    for (size_t i = 0; i < n; i++) {
        v->unit.records[i] = (captions_record){(uint8_t)below(4), (uint8_t)(i + 1), (uint8_t)v->line, byte(), byte()};
    }
}

static const calls *writers(void)
{
    return &plain_programs[0]->own;
}

void carry_unit(const unit_value *v, area_input *area)
{
    area->len += writers()->unit_write(v->reserved, v->flag, v->n, v->z, v->records, area->bytes + area->len,
                                  CAPTIONS_AREA_BYTES - area->len).len;
}

void carry_ga94(const ga94_value *v, area_input *area)
{
    area->len += writers()->ga94_write(v->em_flag, v->cc_flag, v->additional, v->em_data, v->n, v->z, v->records,
                                  area->bytes + area->len, CAPTIONS_AREA_BYTES - area->len).len;
}

void carry_packet(const packet_value *v, packet_input *packet)
{
    packet->len = writers()->packet_write(v->counter, v->slots, v->rows, packet->words, CAPTIONS_PACKET_WORDS).len;
}

void carry_multi(const multi_value *v, multi_input *multi)
{
    multi->len = writers()->multi_write(v->priority, v->inners, v->n, v->words, v->len, multi->words,
                                        CAPTIONS_MULTI_WORDS).len;
}

void carry_pes(const pes_value *v, pes_input *pes)
{
    pes->len = writers()->pes_write(v->data_identifier, v->n, v->units, pes->bytes, CAPTIONS_PES_BYTES).len;
}

void carry_payload(const payload_value *v, payload_input *payload)
{
    payload->len = writers()->payload_write(v->flags, v->m, v->units, payload->bytes, CAPTIONS_PAYLOAD_BYTES).len;
}

/* Letters, spaces, and now and then a 0 or a 1, as in the counts of a caption block. */
static uint8_t text_byte(void)
{
    uint32_t kind = below(32);
    return (uint8_t)(kind == 0 ? below(2) : kind < 6 ? ' ' : 'a' + below(26));
}

/* Byte i of data groups: length 03, type 09 or 0A, two bytes. */
static uint8_t group_byte(size_t i)
{
    return (uint8_t)(i % 4 == 0 ? 3 : i % 4 == 1 ? 9 + below(2) : 1 + below(255));
}

static uint8_t body_byte(enum body kind, size_t i)
{
    switch (kind) {
    case ZERO_BODY:
        return 0;
    case TEXT_BODY:
        return text_byte();
    case GROUP_BODY:
        return group_byte(i);
    default:
        return byte();
    }
}

void add_foreign(area_input *area, size_t body, enum body kind)
{
    uint8_t *s = area->bytes + area->len;
    memcpy(s, (const uint8_t[]){0, 0, 1, 0xB2}, 4);
    for (size_t i = 4; i < 4 + body; i++) {
        s[i] = body_byte(kind, i - 4);
        /* No start code within, and no caption unit: of one byte, 03 would be one in each kind. */
        if ((s[i] == 1 && s[i - 1] == 0 && s[i - 2] == 0) ||
            (i == 4 && s[i] == 3 && (kind != GROUP_BODY || body < 2))) {
            s[i] = 0xFF;
        }
    }
    area->len += 4 + body;
}
