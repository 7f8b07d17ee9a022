/* Areas with a GA94 unit. */
#include "carriage.h"

#include <string.h>

/* A unit's value. */
struct value {
    uint32_t em_flag, cc_flag, em_data; /* process_em_data_flag, process_cc_data_flag, em_data */
    size_t n, z;
    captions_ga94_record records[MAX_RECORDS];
};

/* The flags and em_data are any but that captions are to be processed, so that a peer hands them on. */
static struct value random_value(void)
{
    struct value v = { .em_flag = random_below(2), .cc_flag = 1, .em_data = random_below(256), .z = random_below(4) };
    v.n = random_below(MAX_RECORDS + 1);
    for (size_t i = 0; i < v.n; i++) {
        captions_ga94_record *r = &v.records[i];
        r->cc_valid = (uint8_t)random_below(2);
        r->cc_type = (uint8_t)random_below(4);
        r->cc_data_1 = (uint8_t)random_below(random_below(4) ? 256 : 1);
        r->cc_data_2 = (uint8_t)random_below(random_below(4) ? 256 : 1);
    }
    return v;
}

static void write_unit(struct area *a, const struct value *v)
{
    captions_written w = captions_ga94_write(v->em_flag, v->cc_flag, 0, v->em_data, v->n, v->z, v->records, a->data, MAX_AREA);
    must(w);
    a->len = w.len;
}

static void replace_unit(struct area *a, const struct value *v)
{
    static uint8_t out[MAX_AREA];
    captions_written w = captions_ga94_replace(a->data, a->len, v->em_flag, v->cc_flag, 0, v->em_data, v->n, v->z, v->records, out,
                                               MAX_AREA);
    must(w);
    memcpy(a->data, out, w.len);
    a->len = w.len;
}

static struct value value_of(size_t n, const captions_ga94_record *records)
{
    struct value v = { .em_flag = 1, .cc_flag = 1, .em_data = 0xFF, .n = n };
    memcpy(v.records, records, n * sizeof *records);
    return v;
}

static void written(struct area *a, size_t n, const captions_ga94_record *records)
{
    struct value v = value_of(n, records);
    write_unit(a, &v);
}

static const captions_ga94_record one[] = { { 1, 0, 0x94, 0x2C } };

/* ---- Legal areas ---- */

static void legal_one(struct area *a) { written(a, 1, one); }
static void legal_two(struct area *a) { written(a, 2, (captions_ga94_record[]){ { 1, 0, 0x94, 0x2C }, { 1, 1, 0x15, 0xAD } }); }
static void legal_type_2(struct area *a) { written(a, 1, (captions_ga94_record[]){ { 1, 2, 0x21, 0x41 } }); }
static void legal_type_3(struct area *a) { written(a, 1, (captions_ga94_record[]){ { 1, 3, 0x02, 0x21 } }); }
static void legal_types(struct area *a)
{
    written(a, 4, (captions_ga94_record[]){ { 1, 3, 0x02, 0x21 }, { 1, 2, 0x41, 0x00 }, { 1, 1, 0x15, 0xAD }, { 1, 0, 0x94, 0x2C } });
}
static void legal_not_valid(struct area *a) { written(a, 1, (captions_ga94_record[]){ { 0, 0, 0x94, 0x2C } }); }
static void legal_some_not_valid(struct area *a)
{
    written(a, 5, (captions_ga94_record[]){ { 0, 0, 0x94, 0x2C }, { 0, 1, 0x15, 0xAD }, { 0, 2, 0, 0 }, { 0, 3, 0, 0 },
                                            { 1, 0, 0x94, 0x2F } });
}
static void legal_31(struct area *a)
{
    captions_ga94_record records[MAX_RECORDS];
    for (size_t i = 0; i < MAX_RECORDS; i++)
        records[i] = (captions_ga94_record){ 1, 0, (uint8_t)(0x20 + i), 0x80 };
    written(a, MAX_RECORDS, records);
}
static void legal_no_records(struct area *a) { written(a, 0, one); }
static void legal_em_data(struct area *a, uint32_t em_data)
{
    struct value v = value_of(1, one);
    v.em_data = em_data;
    write_unit(a, &v);
}
static void legal_em_data_0(struct area *a) { legal_em_data(a, 0); }
static void legal_em_flag_0(struct area *a)
{
    struct value v = value_of(1, one);
    v.em_flag = 0;
    write_unit(a, &v);
}
static void legal_cc_flag_0(struct area *a)
{
    struct value v = value_of(1, one);
    v.cc_flag = 0;
    write_unit(a, &v);
}
static void legal_stuffing(struct area *a)
{
    struct value v = value_of(1, one);
    v.z = 3;
    write_unit(a, &v);
}
static void legal_beside_afd(struct area *a)
{
    struct value v = value_of(1, one);
    append_afd(a);
    replace_unit(a, &v);
}
static void foreign_cut(struct area *a) { APPEND(a, "\0\0\1\xB2GA9"); }
static void foreign_type_0(struct area *a) { APPEND(a, "\0\0\1\xB2GA94\0"); }
static void foreign_type_4(struct area *a) { APPEND(a, "\0\0\1\xB2GA94\4\xC1\xFF\xFC\x94\x2C\xFF"); }
static void foreign_type_6(struct area *a) { APPEND(a, "\0\0\1\xB2GA94\6\x3F"); }
static void behind_type_6(struct area *a)
{
    struct value v = value_of(1, one);
    foreign_type_6(a);
    replace_unit(a, &v);
}

/* ---- Both kinds in one area. The SCTE 20 unit has field 1 with 95 20. ---- */

static void append_scte20(struct area *a) { scte20.put_pair(a, 0x95, 0x20); }
static void behind_scte20(struct area *a)
{
    struct value v = value_of(1, one);
    append_scte20(a);
    replace_unit(a, &v);
}
static void before_scte20(struct area *a)
{
    legal_one(a);
    append_scte20(a);
}
static void empty_behind_scte20(struct area *a)
{
    struct value v = value_of(0, one);
    append_scte20(a);
    replace_unit(a, &v);
}
static void refused_behind_scte20(struct area *a)
{
    append_scte20(a);
    APPEND(a, "\0\0\1\xB2GA94\3\xE1\xFF\xFC\x94\x2C\xFF");
}

/* ---- Data groups of another syntax ---- */

static void group_09(struct area *a) { append_group(a, 0x09); }
static void group_0a(struct area *a) { append_group(a, 0x0A); }
static void behind_group(struct area *a)
{
    struct value v = value_of(1, one);
    group_09(a);
    replace_unit(a, &v);
}
static void before_group(struct area *a)
{
    legal_one(a);
    group_09(a);
}

/* ---- Defects ---- */

static void put_before(struct area *a, const void *data, size_t len)
{
    struct area unit = { 0 };
    legal_one(&unit);
    append(a, data, len);
    append(a, unit.data, unit.len);
}
static void too_long(struct area *a)
{
    legal_one(a);
    memset(a->data + a->len, 0, MAX_AREA - a->len);
    a->len = CAPTIONS_AREA_BYTES + 1;
}
static void no_start_code(struct area *a) { put_before(a, "AB", 2); }
static void bare_body(struct area *a)
{
    legal_one(a);
    memmove(a->data, a->data + 4, a->len -= 4);
}
static void extension_behind(struct area *a)
{
    legal_one(a);
    APPEND(a, "\0\0\1\xB5\x40\x00\x10\x00"); /* a copyright extension */
}
static void with_second(struct area *a, size_t n, uint8_t data_2)
{
    struct area unit = { 0 };
    legal_one(a);
    written(&unit, n, (captions_ga94_record[]){ { 1, 0, 0x94, data_2 } });
    append(a, unit.data, unit.len);
}
static void twice(struct area *a) { with_second(a, 1, 0x2C); }
static void second_differs(struct area *a) { with_second(a, 1, 0x2F); }
static void second_without_records(struct area *a) { with_second(a, 0, 0); }
static void second_only_identifier(struct area *a)
{
    legal_one(a);
    APPEND(a, "\0\0\1\xB2GA94");
}
static void only_identifier(struct area *a) { APPEND(a, "\0\0\1\xB2GA94"); }
static void only_type(struct area *a) { APPEND(a, "\0\0\1\xB2GA94\3"); }
static void no_em_data(struct area *a) { APPEND(a, "\0\0\1\xB2GA94\3\xC1"); }
static void no_construct(struct area *a) { APPEND(a, "\0\0\1\xB2GA94\3\xC1\xFF"); }
static void construct_of_1(struct area *a) { APPEND(a, "\0\0\1\xB2GA94\3\xC1\xFF\xFC"); }
static void construct_of_2(struct area *a) { APPEND(a, "\0\0\1\xB2GA94\3\xC1\xFF\xFC\x94"); }
static void second_construct_of_2(struct area *a) { APPEND(a, "\0\0\1\xB2GA94\3\xC2\xFF\xFC\x94\x2C\xFC\x94"); }
static void count_2(struct area *a) { APPEND(a, "\0\0\1\xB2GA94\3\xC2\xFF\xFC\x94\x2C\xFF"); }
static void count_3(struct area *a) { APPEND(a, "\0\0\1\xB2GA94\3\xC3\xFF\xFC\x94\x2C\xFF"); }
static void count_31(struct area *a) { APPEND(a, "\0\0\1\xB2GA94\3\xDF\xFF\xFC\x94\x2C\xFF"); }
static void no_ff(struct area *a) { APPEND(a, "\0\0\1\xB2GA94\3\xC1\xFF\xFC\x94\x2C"); }
static void no_records_no_ff(struct area *a) { APPEND(a, "\0\0\1\xB2GA94\3\xC0\xFF"); }
static void ff_is(struct area *a, uint8_t byte)
{
    no_ff(a);
    append(a, &byte, 1);
}
static void ff_is_00(struct area *a) { ff_is(a, 0x00); }
static void ff_is_fe(struct area *a) { ff_is(a, 0xFE); }
static void wrong_marker(struct area *a, uint8_t first)
{
    APPEND(a, "\0\0\1\xB2GA94\3\xC2\xFF");
    append(a, &first, 1);
    APPEND(a, "\x94\x2C\xFC\x94\x2F\xFF");
}
static void marker_1(struct area *a) { wrong_marker(a, 0x7C); }
static void marker_2(struct area *a) { wrong_marker(a, 0xBC); }
static void marker_3(struct area *a) { wrong_marker(a, 0xDC); }
static void marker_4(struct area *a) { wrong_marker(a, 0xEC); }
static void marker_5(struct area *a) { wrong_marker(a, 0xF4); }
static void markers_0(struct area *a) { wrong_marker(a, 0x04); }
static void stuffing_ff(struct area *a)
{
    legal_one(a);
    APPEND(a, "\0\xFF");
}
static void count_0_with_construct(struct area *a) { APPEND(a, "\0\0\1\xB2GA94\3\xC0\xFF\xFC\x94\x2C\xFF"); }
static void third_flag(struct area *a) { APPEND(a, "\0\0\1\xB2GA94\3\xE1\xFF\xFC\x94\x2C\xFF"); }
static void third_flag_alone(struct area *a) { APPEND(a, "\0\0\1\xB2GA94\3\xE1"); }

static const struct area_case cases[] = {
    { 0, "one record: FC 94 2C (unit G)", legal_one },
    { 0, "cc_type 0 and 1: FC 94 2C, FD 15 AD", legal_two },
    { 0, "cc_type 2: FE 21 41", legal_type_2 },
    { 0, "cc_type 3: FF 02 21", legal_type_3 },
    { 0, "cc_type 3, 2, 1, 0: FF 02 21, FE 41 00, FD 15 AD, FC 94 2C", legal_types },
    { 0, "cc_valid 0: F8 94 2C", legal_not_valid },
    { 0, "cc_valid 0 with each type, then FC 94 2F", legal_some_not_valid },
    { 0, "31 records: FC 20 80 to FC 3E 80", legal_31 },
    { 0, "no records", legal_no_records },
    { 0, "process_cc_data_flag 0: flags byte 81", legal_cc_flag_0 },
    { 0, "process_em_data_flag 0: flags byte 41", legal_em_flag_0 },
    { 0, "em_data 00", legal_em_data_0 },
    { 0, "three bytes of stuffing", legal_stuffing },
    { 0, "identifier cut: 47 41 39 (foreign)", foreign_cut },
    { 0, "identifier and 00 (foreign)", foreign_type_0 },
    { 0, "unit G with type 04 (foreign)", foreign_type_4 },
    { 0, "type 06 (foreign)", foreign_type_6 },
    { 0, "unit G put behind a foreign GA94 unit of type 06", behind_type_6 },
    { 0, "unit G put behind a foreign DTG1 unit with AFD 8", legal_beside_afd },
    { 0, "unit G put behind SCTE 20 with 95 20", behind_scte20 },
    { 0, "unit G, then SCTE 20 with 95 20", before_scte20 },
    { 0, "SCTE 20 with 95 20, then a GA94 unit without records", empty_behind_scte20 },
    { 0, "data group 03 09 95 20 alone (foreign)", group_09 },
    { 0, "data group 03 0A 95 20 alone (foreign)", group_0a },
    { 0, "unit G put behind a data group 03 09 95 20", behind_group },
    { 0, "unit G, then a data group 03 09 95 20", before_group },
    { 1, "16,385 bytes: unit G and stuffing", too_long },
    { 2, "41 42 before the first start code", no_start_code },
    { 2, "the body of unit G without 00 00 01 B2", bare_body },
    { 3, "an extension 00 00 01 B5 behind unit G", extension_behind },
    { 4, "unit G twice", twice },
    { 4, "unit G, then a unit with FC 94 2F", second_differs },
    { 4, "unit G, then a unit without records", second_without_records },
    { 4, "unit G, then the identifier alone", second_only_identifier },
    { 5, "identifier alone", only_identifier },
    { 5, "identifier and 03 alone", only_type },
    { 5, "em_data missing: ends with the flags byte", no_em_data },
    { 5, "ends with em_data, cc_count 1", no_construct },
    { 5, "construct cut short: FC", construct_of_1 },
    { 5, "construct cut short: FC 94", construct_of_2 },
    { 5, "FC 94 2C, then a construct cut short: FC 94", second_construct_of_2 },
    { 5, "cc_count 2 with one construct, then FF", count_2 },
    { 5, "cc_count 3 with one construct, then FF", count_3 },
    { 5, "cc_count 31 with one construct, then FF", count_31 },
    { 5, "FF missing", no_ff },
    { 5, "FF missing, no records", no_records_no_ff },
    { 16, "third flag set: flags byte E1", third_flag },
    { 16, "third flag set, ends with the flags byte", third_flag_alone },
    { 16, "SCTE 20 with 95 20, then third flag set", refused_behind_scte20 },
    { 18, "first marker bit 0: 7C 94 2C, then FC 94 2F", marker_1 },
    { 18, "second marker bit 0: BC 94 2C, then FC 94 2F", marker_2 },
    { 18, "third marker bit 0: DC 94 2C, then FC 94 2F", marker_3 },
    { 18, "fourth marker bit 0: EC 94 2C, then FC 94 2F", marker_4 },
    { 18, "fifth marker bit 0: F4 94 2C, then FC 94 2F", marker_5 },
    { 18, "all marker bits 0: 04 94 2C, then FC 94 2F", markers_0 },
    { 18, "FF is 00", ff_is_00 },
    { 18, "FF is FE", ff_is_fe },
    { 18, "cc_count 0 with one construct", count_0_with_construct },
    { 19, "stuffing 00 FF", stuffing_ff },
};

/* ---- The carriage ---- */

static void expect(struct triples *t, const struct value *v)
{
    t->n = v->n;
    for (size_t i = 0; i < v->n; i++) {
        t->of[i][0] = (uint8_t)(v->records[i].cc_valid << 2 | v->records[i].cc_type);
        t->of[i][1] = v->records[i].cc_data_1;
        t->of[i][2] = v->records[i].cc_data_2;
    }
}

static void random_area(struct area *a, struct triples *t, const struct picture *p, bool replace)
{
    struct value v = random_value();
    (void)p;
    expect(t, &v);
    if (replace) {
        struct value old = random_value();
        write_unit(a, &old);
        append_afd(a);
        replace_unit(a, &v);
    } else {
        write_unit(a, &v);
    }
}

static void one_pair(struct area *a, struct triples *t, const struct picture *p, uint8_t data_1, uint8_t data_2)
{
    struct value v = value_of(1, (captions_ga94_record[]){ { 1, 0, data_1, data_2 } });
    (void)p;
    expect(t, &v);
    write_unit(a, &v);
}

static void put_pair(struct area *a, uint8_t data_1, uint8_t data_2)
{
    struct value v = value_of(1, (captions_ga94_record[]){ { 1, 0, data_1, data_2 } });
    replace_unit(a, &v);
}

static int read_area(const struct area *a, int *records)
{
    captions_ga94_record out[MAX_RECORDS];
    captions_ga94_unit u = captions_ga94_read(a->data, a->len, out);
    *records = u.present ? (int)u.n : -1;
    return u.refusal.number;
}

const struct carriage ga94 = {
    .name = "GA94",
    .random = random_area,
    .one_pair = one_pair,
    .put_pair = put_pair,
    .carried = "em_data",
    .carried_values = 256,
    .with_carried = legal_em_data,
    .count_31 = count_31,
    .read = read_area,
    .cases = cases,
    .case_count = sizeof cases / sizeof cases[0],
};
