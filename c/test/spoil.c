/* spoil.c: values with one number that cannot be written. See mutate.h. */
#include <string.h>

#include "mutate.h"

uint64_t number_above(dice *d, uint64_t right, uint64_t most, unsigned bits)
{
    uint64_t largest = bits == 64 ? UINT64_MAX : (UINT64_C(1) << bits) - 1;

    switch (below(d, 6)) {
    case 0:
        return most + 1;
    case 1:
        return largest;
    case 2:
        return largest - below(d, 120);
    case 3:
        return most + 1 + below(d, (size_t)(largest - most));
    default:
        return bits == 8 ? most + 1 + below(d, 4) : right + (UINT64_C(1) << (8 + below(d, bits - 8)));
    }
}

static uint8_t small_above(dice *d, uint8_t most)
{
    return (uint8_t)number_above(d, 0, most, 8);
}

/* ---- Caption units ---- */

static void spoil_order(dice *d, unit_value *value)
{
    size_t i = below(d, value->n);
    captions_record *a = &value->records[i], *b = &value->records[i == 0 ? value->n - 1 : i - 1];
    captions_record kept = *a;

    switch (below(d, 4)) {
    case 0:
        *a = *b;
        *b = kept;
        break;
    case 1:
        a->line_offset = b->line_offset;
        break;
    case 2:
        a->field_number = (uint8_t)(1 + below(d, 3));
        break;
    default:
        for (size_t j = 0; j < value->n; j++)
            value->records[j].cc_priority = 0;
        break;
    }
}

static void spoil_record(dice *d, unit_value *value)
{
    captions_record *record;

    if (value->n == 0 || value->n > CAPTIONS_RECORDS) {
        value->vbi_data_flag = 0;
        value->n = 1;
        return;
    }
    record = &value->records[below(d, value->n)];
    switch (below(d, 9)) {
    case 0:
        record->cc_priority = small_above(d, 3);
        break;
    case 1:
        record->field_number = small_above(d, 3);
        break;
    case 2:
        record->line_offset = small_above(d, 31);
        break;
    case 3:
    case 4:
        record->field_number = 0;
        break;
    case 5:
        value->vbi_data_flag = 0;
        break;
    default:
        spoil_order(d, value);
        break;
    }
}

/* Reserved bits and flag that make 09 or 0A, so that the unit would be a data group; or 08 or 0B beside them, which are legal. */
static void spoil_type(dice *d, unit_value *value)
{
    value->reserved = (uint32_t)(4 + below(d, 2));
    value->vbi_data_flag = chance(d, 75) ? 5 - value->reserved : value->reserved - 4;
    if (value->vbi_data_flag == 0 && chance(d, 80))
        value->n = 0;
}

/* z so that the unit has 16,384 bytes, give or take some. */
static size_t z_at_limit(dice *d, const unit_value *value)
{
    size_t front = LAYOUT_START + layout_content_bytes(value);

    return CAPTIONS_AREA_BYTES + 2 - below(d, 5) - front;
}

void spoil_unit(dice *d, unit_value *value)
{
    switch (below(d, 12)) {
    case 0:
        value->reserved = (uint32_t)number_above(d, value->reserved, 127, 32);
        break;
    case 1:
        value->vbi_data_flag = (uint32_t)number_above(d, value->vbi_data_flag, 1, 32);
        break;
    case 2:
        value->n = number_above(d, value->n, CAPTIONS_RECORDS, 64);
        break;
    case 3:
        value->z = number_above(d, value->z, CAPTIONS_AREA_BYTES, 64);
        break;
    case 4:
        if (value->n <= CAPTIONS_RECORDS)
            value->z = chance(d, 30) ? CAPTIONS_AREA_BYTES - below(d, 2) : z_at_limit(d, value);
        break;
    case 5:
    case 6:
        spoil_type(d, value);
        break;
    default:
        spoil_record(d, value);
        break;
    }
}

/* ---- GA94 units ---- */

static void spoil_ga94_record(dice *d, ga94_value *value)
{
    captions_ga94_record *record;

    if (value->n == 0 || value->n > CAPTIONS_RECORDS) {
        value->additional_data_flag = 1;
        return;
    }
    record = &value->records[below(d, value->n)];
    if (chance(d, 50))
        record->cc_valid = small_above(d, 1);
    else
        record->cc_type = small_above(d, 3);
}

void spoil_ga94(dice *d, ga94_value *value)
{
    uint32_t *const flags[] = {&value->process_em_data_flag, &value->process_cc_data_flag, &value->additional_data_flag};
    uint32_t *flag = flags[below(d, 3)];

    switch (below(d, 9)) {
    case 0:
        *flag = (uint32_t)number_above(d, *flag, 1, 32);
        break;
    case 1:
        value->em_data = (uint32_t)number_above(d, value->em_data, 255, 32);
        break;
    case 2:
        value->n = number_above(d, value->n, CAPTIONS_RECORDS, 64);
        break;
    case 3:
        value->z = number_above(d, value->z, CAPTIONS_AREA_BYTES, 64);
        break;
    case 4: /* a unit of 16,384 bytes, give or take some */
        if (value->n <= CAPTIONS_RECORDS) {
            size_t front = chance(d, 30) ? 2 : LAYOUT_START + layout_ga94_content_bytes(value);
            value->z = CAPTIONS_AREA_BYTES + 2 - below(d, 5) - front;
        }
        break;
    case 5:
    case 6:
        value->additional_data_flag = 1;
        break;
    default:
        spoil_ga94_record(d, value);
        break;
    }
}

/* ---- Packets ---- */

/* Any number that a uint8_t holds, with those around the limits often. */
static uint8_t any_line(dice *d)
{
    static const uint8_t telling[] = {0, 1, 5, 6, 22, 23, 31, 32, 38, 128, 255};

    return chance(d, 70) ? telling[below(d, sizeof telling)] : (uint8_t)roll(d);
}

void spoil_packet(dice *d, packet_value *value)
{
    size_t i = below(d, CAPTIONS_SLOTS), bit;
    captions_slot *slot = &value->slots[i];

    switch (below(d, 8)) {
    case 0:
        value->counter = (uint32_t)number_above(d, value->counter, 65535, 32);
        break;
    case 1:
        slot->full = chance(d, 50) ? !slot->full : small_above(d, 1);
        break;
    case 2:
    case 3:
        slot->line = any_line(d);
        break;
    case 4:
        slot->reserved = chance(d, 50) ? (uint8_t)below(d, 4) : small_above(d, 3);
        break;
    case 5:
        slot->field = chance(d, 50) ? !slot->field : small_above(d, 1);
        break;
    case 6: /* full with descriptor 0 */
        *slot = (captions_slot){1, 0, 0, 0};
        break;
    default: /* in an empty slot, one byte that may not be there */
        bit = below(d, 8 * CAPTIONS_ROW_BYTES);
        value->rows[i].bytes[bit / 8] ^= (uint8_t)(1u << bit % 8);
        break;
    }
}

/* ---- Payloads ---- */

void spoil_access_unit(dice *d, captions_access_unit *unit)
{
    switch (below(d, 3)) {
    case 0:
        unit->cc_valid_1 = small_above(d, 1);
        break;
    case 1:
        unit->cc_valid_2 = small_above(d, 1);
        break;
    default:
        unit->padding = small_above(d, 63);
        break;
    }
}

void spoil_payload(dice *d, payload_value *value)
{
    switch (below(d, 4)) {
    case 0:
        value->flags = (uint32_t)number_above(d, value->flags, 255, 32);
        break;
    case 1:
        value->m = number_above(d, value->m, CAPTIONS_ACCESS_UNITS, 64);
        break;
    case 2: /* 1 + 5m, with 64 bits, is small again */
        value->m = SIZE_MAX / 5 + below(d, 3);
        break;
    default:
        if (value->m > 0 && value->m <= CAPTIONS_ACCESS_UNITS)
            spoil_access_unit(d, &value->units[below(d, value->m)]);
        break;
    }
}
