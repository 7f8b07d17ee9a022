/* Areas with an SCTE 20 caption unit. */
#include "carriage.h"

#include <string.h>

/* A unit's value. */
struct value {
    uint32_t reserved, flag;
    size_t n, z;
    captions_record records[CAPTIONS_RECORDS];
};

/*
 * A legal value with flag 1 and records of display fields 1 to `fields`. Places of field and line are chosen in rising order,
 * and at most four of a field get priority 0.
 */
static struct value random_value(uint32_t reserved, uint32_t fields)
{
    struct value v = { .reserved = reserved, .flag = 1, .z = random_below(4) };
    size_t want = random_below(CAPTIONS_RECORDS + 1);
    uint32_t zeros[4] = { 0 };
    for (uint32_t place = 0; place < 32 * fields && v.n < want; place++) {
        if (random_below(32 * fields - place) >= want - v.n)
            continue;
        captions_record *r = &v.records[v.n++];
        r->field_number = (uint8_t)(1 + place / 32);
        r->line_offset = (uint8_t)(place % 32);
        r->cc_priority = (uint8_t)random_below(4);
        if (r->cc_priority == 0 && ++zeros[r->field_number] > 4)
            r->cc_priority = 1;
        r->cc_data_1 = (uint8_t)random_below(random_below(4) ? 256 : 1);
        r->cc_data_2 = (uint8_t)random_below(random_below(4) ? 256 : 1);
    }
    return v;
}

static void write_unit(struct area *a, const struct value *v)
{
    captions_written w = captions_unit_write(v->reserved, v->flag, v->n, v->z, v->records, a->data, MAX_AREA);
    must(w);
    a->len = w.len;
}

static void replace_unit(struct area *a, const struct value *v)
{
    static uint8_t out[MAX_AREA];
    captions_written w = captions_area_replace(a->data, a->len, v->reserved, v->flag, v->n, v->z, v->records, out, MAX_AREA);
    must(w);
    memcpy(a->data, out, w.len);
    a->len = w.len;
}

static struct value value_of(size_t n, const captions_record *records)
{
    struct value v = { .reserved = 64, .flag = 1, .n = n };
    memcpy(v.records, records, n * sizeof *records);
    return v;
}

/* ---- Units that the library does not write, bit by bit ---- */

struct bits {
    struct area *a;
    size_t at; /* in bits */
};

static void put(struct bits *b, unsigned count, uint32_t value)
{
    while (count-- > 0) {
        if (b->at % 8 == 0)
            b->a->data[b->a->len++] = 0;
        b->a->data[b->a->len - 1] |= (uint8_t)((value >> count & 1) << (7 - b->at % 8));
        b->at++;
    }
}

static void put_reversed(struct bits *b, uint8_t byte)
{
    for (int i = 0; i < 8; i++)
        put(b, 1, byte >> i & 1);
}

/* What may be wrong in a raw unit. */
struct raw {
    unsigned count;        /* cc_count, also where it is not the number of constructs */
    unsigned marker;       /* the marker of each construct */
    unsigned video_count;
    unsigned alignment;    /* the bit that fills up to a whole byte */
};

/* `second` is the byte behind the 03: the reserved bits, and the flag, which is 1. */
static void raw_unit_of(struct area *a, uint8_t second, struct raw r, size_t n, const captions_record *records)
{
    struct bits b = { a, 0 };
    put(&b, 32, 0x000001B2);
    put(&b, 8, 0x03);
    put(&b, 8, second);
    put(&b, 5, r.count);
    for (size_t i = 0; i < n; i++) {
        put(&b, 2, records[i].cc_priority);
        put(&b, 2, records[i].field_number);
        put(&b, 5, records[i].line_offset);
        put_reversed(&b, records[i].cc_data_1);
        put_reversed(&b, records[i].cc_data_2);
        put(&b, 1, r.marker);
    }
    put(&b, 4, r.video_count);
    while (b.at % 8 != 0)
        put(&b, 1, r.alignment);
}

static void raw_unit(struct area *a, struct raw r, size_t n, const captions_record *records)
{
    raw_unit_of(a, 0x81, r, n, records);
}

static void raw_records(struct area *a, size_t n, const captions_record *records)
{
    raw_unit(a, (struct raw){ .count = (unsigned)n, .marker = 1 }, n, records);
}

static const captions_record one[] = { { 0, 1, 11, 0x94, 0x2C } };
static const captions_record two[] = { { 0, 1, 11, 0x94, 0x2C }, { 0, 2, 11, 0x15, 0xAD } };
static const captions_record four[] = {
    { 0, 1, 10, 0x94, 0x2C }, { 0, 1, 11, 0x94, 0x2D }, { 0, 1, 12, 0x94, 0x2E }, { 0, 1, 13, 0x94, 0x2F },
};

static void written(struct area *a, size_t n, const captions_record *records)
{
    struct value v = value_of(n, records);
    write_unit(a, &v);
}

/* ---- Legal areas ---- */

static void legal_one(struct area *a) { written(a, 1, one); }
static void legal_two(struct area *a) { written(a, 2, two); }
static void legal_three(struct area *a)
{
    written(a, 3, (captions_record[]){ { 0, 1, 11, 0x94, 0x2C }, { 1, 2, 11, 0x15, 0xAD }, { 2, 3, 11, 0x94, 0x2F } });
}
static void legal_other_lines(struct area *a)
{
    written(a, 3, (captions_record[]){ { 3, 1, 0, 0x01, 0x02 }, { 0, 1, 11, 0x94, 0x2C }, { 3, 1, 31, 0xFE, 0xFF } });
}
static void legal_no_records(struct area *a) { written(a, 0, one); }
static void legal_flag_0(struct area *a)
{
    struct value v = { .reserved = 64 };
    write_unit(a, &v);
}
static void legal_reserved(struct area *a, uint32_t reserved)
{
    struct value v = value_of(1, one);
    v.reserved = reserved;
    write_unit(a, &v);
}
static void legal_reserved_0(struct area *a) { legal_reserved(a, 0); }
static void legal_reserved_127(struct area *a) { legal_reserved(a, 127); }
static void legal_08(struct area *a)
{
    struct value v = { .reserved = 4 };
    write_unit(a, &v);
}
static void legal_0b(struct area *a) { legal_reserved(a, 5); }
static void legal_stuffing(struct area *a)
{
    struct value v = value_of(1, one);
    v.z = 3;
    write_unit(a, &v);
}
static void legal_nothing(struct area *a) { a->len = 0; }
static void legal_foreign(struct area *a) { APPEND(a, "\0\0\1\xB2XYZ1\2\3"); }
static void legal_beside_afd(struct area *a)
{
    struct value v = value_of(1, one);
    append_afd(a);
    replace_unit(a, &v);
}
static void legal_beside_a53(struct area *a)
{
    struct value v = value_of(1, one);
    APPEND(a, "\0\0\1\xB2" "GA94\3\xC1\xFF\xFC\x95\x20\xFF");
    replace_unit(a, &v);
}

/* ---- Data groups of another syntax: legal areas, in which they are foreign ---- */

/* The library does not write what would be a caption unit but for its second byte. */
static void not_written(uint32_t reserved, uint32_t flag)
{
    uint8_t out[64];
    captions_record none[CAPTIONS_RECORDS] = { { 0 } };
    must_refuse(captions_unit_write(reserved, flag, 0, 0, none, out, sizeof out), CAPTIONS_UNHOLDABLE);
}
static void unit_of_09(struct area *a)
{
    not_written(4, 1);
    raw_unit_of(a, 0x09, (struct raw){ .count = 1, .marker = 1 }, 1, one);
}
static void unit_of_0a(struct area *a)
{
    not_written(5, 0);
    APPEND(a, "\0\0\1\xB2\3\x0A");
}
static void group_09(struct area *a) { append_group(a, 0x09); }
static void group_0a(struct area *a) { append_group(a, 0x0A); }
static void groups(struct area *a)
{
    group_09(a);
    APPEND(a, "\3\x0A\x15\xAD");
}
static void put_behind(struct area *a, void (*first)(struct area *))
{
    struct value v = value_of(1, one);
    first(a);
    replace_unit(a, &v);
}
static void behind_09(struct area *a) { put_behind(a, group_09); }
static void behind_0a(struct area *a) { put_behind(a, group_0a); }
static void behind_unit_of_09(struct area *a) { put_behind(a, unit_of_09); }
static void before_09(struct area *a)
{
    legal_one(a);
    group_09(a);
}
static void before_0a(struct area *a)
{
    legal_one(a);
    group_0a(a);
}

/* Each of the 128 values with flag 1, also the one that is not written. */
static void any_reserved(struct area *a, uint32_t reserved)
{
    if (reserved == 4)
        unit_of_09(a);
    else
        legal_reserved(a, reserved);
}

/* ---- Defects ---- */

static void too_long(struct area *a)
{
    legal_one(a);
    memset(a->data + a->len, 0, MAX_AREA - a->len);
    a->len = CAPTIONS_AREA_BYTES + 1;
}
static void no_start_code(struct area *a)
{
    struct area unit = { 0 };
    legal_one(&unit);
    APPEND(a, "AB");
    append(a, unit.data, unit.len);
}
static void bare_body(struct area *a)
{
    legal_one(a);
    memmove(a->data, a->data + 4, a->len -= 4);
}
static void extension_first(struct area *a)
{
    struct area unit = { 0 };
    legal_one(&unit);
    APPEND(a, "\0\0\1\xB5\x40\x00\x10\x00"); /* a copyright extension */
    append(a, unit.data, unit.len);
}
static void extension_behind(struct area *a)
{
    legal_one(a);
    APPEND(a, "\0\0\1\xB5\x40\x00\x10\x00");
}
static void reserved_code_behind(struct area *a)
{
    legal_one(a);
    APPEND(a, "\0\0\1\xB0\x12");
}
static void bare_prefix_at_end(struct area *a)
{
    legal_one(a);
    APPEND(a, "\0\0\1");
}
static void twice(struct area *a)
{
    struct area unit = { 0 };
    legal_one(&unit);
    append(a, unit.data, unit.len);
    append(a, unit.data, unit.len);
}
static void second_differs(struct area *a)
{
    struct area unit = { 0 };
    legal_one(a);
    written(&unit, 1, (captions_record[]){ { 0, 1, 11, 0x94, 0x2F } });
    append(a, unit.data, unit.len);
}
static void second_without_records(struct area *a)
{
    struct area unit = { 0 };
    legal_one(a);
    legal_no_records(&unit);
    append(a, unit.data, unit.len);
}
static void only_type(struct area *a) { APPEND(a, "\0\0\1\xB2\3"); }
static void only_flag(struct area *a) { APPEND(a, "\0\0\1\xB2\3\x81"); }
static void last_byte_gone(struct area *a)
{
    legal_one(a);
    a->len--;
}
static void cut_in_construct(struct area *a)
{
    legal_one(a);
    a->len -= 3;
}
static void count_says_more(struct area *a)
{
    raw_unit(a, (struct raw){ .count = 3, .marker = 1 }, 1, one);
}
static void count_says_31(struct area *a)
{
    raw_unit(a, (struct raw){ .count = 31, .marker = 1 }, 1, one);
}
static void marker_0(struct area *a)
{
    raw_unit(a, (struct raw){ .count = 1 }, 1, one);
}
static void alignment_1(struct area *a)
{
    raw_unit(a, (struct raw){ .count = 1, .marker = 1, .alignment = 1 }, 1, one);
}
static void stuffing_ff(struct area *a)
{
    legal_one(a);
    APPEND(a, "\0\xFF");
}
static void field_0(struct area *a)
{
    raw_records(a, 2, (captions_record[]){ { 0, 0, 11, 0x94, 0x2C }, { 0, 1, 11, 0x94, 0x2F } });
}
static void field_falls(struct area *a)
{
    raw_records(a, 2, (captions_record[]){ { 0, 2, 11, 0x15, 0xAD }, { 0, 1, 11, 0x94, 0x2C } });
}
static void line_equal(struct area *a)
{
    raw_records(a, 2, (captions_record[]){ { 0, 1, 11, 0x94, 0x2C }, { 0, 1, 11, 0x94, 0x2F } });
}
static void line_falls(struct area *a)
{
    raw_records(a, 2, (captions_record[]){ { 0, 1, 11, 0x94, 0x2C }, { 0, 1, 10, 0x94, 0x2F } });
}
static void fifth_priority(struct area *a)
{
    captions_record five[5] = { { 0 } };
    memcpy(five, four, sizeof four);
    five[4] = (captions_record){ 0, 1, 14, 0x94, 0x20 };
    raw_records(a, 5, five);
}
static void sampled_video(struct area *a)
{
    raw_unit(a, (struct raw){ .count = 1, .marker = 1, .video_count = 1 }, 1, one);
}

static const struct area_case cases[] = {
    { 0, "one record, field 1, line 11, 94 2C (case A)", legal_one },
    { 0, "two records, fields 1 and 2: 94 2C, 15 AD", legal_two },
    { 0, "three records, fields 1, 2, 3: 94 2C, 15 AD, 94 2F", legal_three },
    { 0, "field 1, lines 0, 11, 31: 01 02, 94 2C, FE FF; priorities 3, 0, 3", legal_other_lines },
    { 0, "no records (case C)", legal_no_records },
    { 0, "flag 0 (case D)", legal_flag_0 },
    { 0, "reserved 0: second byte 01", legal_reserved_0 },
    { 0, "reserved 127: second byte FF", legal_reserved_127 },
    { 0, "reserved 4 and flag 0: second byte 08", legal_08 },
    { 0, "reserved 4: second byte 09 (foreign, never written)", unit_of_09 },
    { 0, "reserved 5 and flag 0: second byte 0A (foreign, never written)", unit_of_0a },
    { 0, "reserved 5: second byte 0B", legal_0b },
    { 0, "three bytes of stuffing", legal_stuffing },
    { 0, "empty area", legal_nothing },
    { 0, "a foreign unit alone", legal_foreign },
    { 0, "put behind a foreign DTG1 unit with AFD 8", legal_beside_afd },
    { 0, "put behind a foreign GA94 unit with FC 95 20", legal_beside_a53 },
    { 0, "data group 03 09 95 20 alone (foreign)", group_09 },
    { 0, "data group 03 0A 95 20 alone (foreign)", group_0a },
    { 0, "data groups 03 09 95 20 03 0A 15 AD alone (foreign)", groups },
    { 0, "put behind a data group 03 09 95 20", behind_09 },
    { 0, "put behind a data group 03 0A 95 20", behind_0a },
    { 0, "put behind a unit with second byte 09", behind_unit_of_09 },
    { 0, "case A, then a data group 03 09 95 20", before_09 },
    { 0, "case A, then a data group 03 0A 95 20", before_0a },
    { 1, "16,385 bytes: case A and stuffing", too_long },
    { 2, "41 42 before the first start code", no_start_code },
    { 2, "the body of case A without 00 00 01 B2", bare_body },
    { 2, "an extension 00 00 01 B5 before case A", extension_first },
    { 3, "an extension 00 00 01 B5 behind case A", extension_behind },
    { 3, "a reserved code 00 00 01 B0 behind case A", reserved_code_behind },
    { 3, "00 00 01 at the very end", bare_prefix_at_end },
    { 4, "case A twice", twice },
    { 4, "case A, then a unit with 94 2F", second_differs },
    { 4, "case A, then a unit without records", second_without_records },
    { 5, "03 alone (case E)", only_type },
    { 5, "03 81 alone", only_flag },
    { 5, "case A without its last byte (case F)", last_byte_gone },
    { 5, "case A cut inside its construct", cut_in_construct },
    { 5, "cc_count 3 with one construct", count_says_more },
    { 5, "cc_count 31 with one construct", count_says_31 },
    { 7, "field 0: 94 2C, then field 1: 94 2F", field_0 },
    { 8, "field falls: field 2 15 AD, field 1 94 2C", field_falls },
    { 8, "line equal: 94 2C, 94 2F both at 11", line_equal },
    { 8, "line falls: 94 2C at 11, 94 2F at 10", line_falls },
    { 9, "five of priority 0: 94 2C to 2F, 94 20", fifth_priority },
    { 10, "sampled video count 1, nothing behind it", sampled_video },
    { 18, "marker 0 (case J)", marker_0 },
    { 19, "alignment bits 1", alignment_1 },
    { 19, "stuffing 00 FF", stuffing_ff },
};

/* ---- The carriage ---- */

/* The field of the frame that a display field is: 0 top, 1 bottom. Only here is one counting turned into the other. */
static int field_of_frame(const struct picture *p, uint8_t display_field)
{
    if (p->structure != 3)
        return p->structure - 1;
    bool first = display_field != 2;
    return first == p->top_field_first ? 0 : 1;
}

static void expect(struct triples *t, const struct picture *p, const struct value *v)
{
    t->n = v->n;
    for (size_t i = 0; i < v->n; i++) {
        t->of[i][0] = (uint8_t)(4 | field_of_frame(p, v->records[i].field_number));
        t->of[i][1] = v->records[i].cc_data_1;
        t->of[i][2] = v->records[i].cc_data_2;
    }
}

static void random_area(struct area *a, struct triples *t, const struct picture *p, bool replace)
{
    struct value v = random_value(random_below(2) ? 64 : 0, p->structure == 3 ? 3 : 1);
    expect(t, p, &v);
    if (replace) {
        uint32_t reserved = random_below(128);
        struct value old = random_value(reserved == 4 ? 64 : reserved, 3); /* not 4: that would be a data group */
        write_unit(a, &old);
        append_afd(a);
        replace_unit(a, &v);
    } else {
        write_unit(a, &v);
    }
}

static void one_pair(struct area *a, struct triples *t, const struct picture *p, uint8_t data_1, uint8_t data_2)
{
    struct value v = value_of(1, (captions_record[]){ { 0, 1, 11, data_1, data_2 } });
    expect(t, p, &v);
    write_unit(a, &v);
}

static void put_pair(struct area *a, uint8_t data_1, uint8_t data_2)
{
    struct value v = value_of(1, (captions_record[]){ { 0, 1, 11, data_1, data_2 } });
    replace_unit(a, &v);
}

static int read_area(const struct area *a, int *records)
{
    captions_record out[CAPTIONS_RECORDS];
    captions_unit u = captions_area_read(a->data, a->len, out);
    *records = u.present ? (int)u.n : -1;
    return u.refusal.number;
}

const struct carriage scte20 = {
    .name = "SCTE 20",
    .random = random_area,
    .one_pair = one_pair,
    .put_pair = put_pair,
    .carried = "reserved",
    .carried_values = 128,
    .with_carried = any_reserved,
    .count_31 = count_says_31,
    .read = read_area,
    .cases = cases,
    .case_count = sizeof cases / sizeof cases[0],
};
