/*
 * empty_vector.cc: the calls from C++, with what an empty std::vector gives: in practice a null pointer, and length 0.
 *
 * Each answer and all lent memory are compared with what RULES says. The status is 1 where one differs.
 */
#include <cstdio>
#include <cstring>
#include <vector>

#include "captions.h"

static int checks, wrong;

static void expect(const char *what, bool holds)
{
    checks++;
    if (!holds) {
        std::printf("DIFFERS: %s\n", what);
        wrong++;
    }
}

static void expect_refused(const char *what, captions_refusal refusal, int number)
{
    expect(what, refusal.number == number && refusal.place == 0);
}

/* Whether an array is of this byte throughout. */
template <typename T, size_t N>
static bool is_all(const T (&array)[N], uint8_t byte)
{
    std::vector<uint8_t> right(sizeof array, byte);

    return std::memcmp(array, right.data(), sizeof array) == 0;
}

static void areas()
{
    const std::vector<uint8_t> none;
    std::vector<uint8_t> no_room, out(64, 0xA5);
    captions_record records[CAPTIONS_RECORDS];

    std::memset(records, 0xA5, sizeof records);
    captions_unit unit = captions_area_read(none.data(), none.size(), records);
    expect_refused("an empty area is accepted", unit.refusal, CAPTIONS_ACCEPTED);
    expect("an empty area has no caption unit", !unit.present && unit.n == 0 && unit.z == 0);
    expect("an empty area clears the records", is_all(records, 0));

    captions_written made = captions_unit_write(64, 0, 0, 0, records, no_room.data(), no_room.size());
    expect_refused("a unit and no room", made.refusal, CAPTIONS_NO_ROOM);
    made = captions_area_replace(none.data(), none.size(), 64, 0, 0, 0, records, no_room.data(), no_room.size());
    expect_refused("an empty area and no room", made.refusal, CAPTIONS_NO_ROOM);
    made = captions_area_replace(none.data(), none.size(), 64, 0, 0, 0, records, out.data(), out.size());
    expect_refused("a unit put into an empty area", made.refusal, CAPTIONS_ACCEPTED);
    const uint8_t right[] = {0x00, 0x00, 0x01, 0xB2, 0x03, 0x80};
    expect("the bytes of that area", made.len == sizeof right && std::memcmp(out.data(), right, sizeof right) == 0);
    expect("what stands behind that area", out[made.len] == 0xA5);
    made = captions_area_replace(out.data(), made.len, 64, 0, 0, 0, records, no_room.data(), no_room.size());
    expect_refused("an area and no room", made.refusal, CAPTIONS_NO_ROOM);
}

static void ga94()
{
    const std::vector<uint8_t> none;
    std::vector<uint8_t> no_room, out(64, 0xA5);
    captions_ga94_record records[CAPTIONS_RECORDS];

    std::memset(records, 0xA5, sizeof records);
    captions_ga94_unit unit = captions_ga94_read(none.data(), none.size(), records);
    expect_refused("an empty area is accepted for GA94", unit.refusal, CAPTIONS_ACCEPTED);
    expect("an empty area has no GA94 unit", !unit.present && unit.em_data == 0 && unit.n == 0 && unit.z == 0);
    expect("an empty area clears the GA94 records", is_all(records, 0));

    captions_written made = captions_ga94_write(0, 1, 0, 255, 0, 0, records, no_room.data(), no_room.size());
    expect_refused("a GA94 unit and no room", made.refusal, CAPTIONS_NO_ROOM);
    made = captions_ga94_replace(none.data(), none.size(), 0, 1, 1, 255, 0, 0, records, no_room.data(), no_room.size());
    expect_refused("a GA94 unit with its third flag set and no room", made.refusal, CAPTIONS_ADDITIONAL_DATA);
    made = captions_ga94_replace(none.data(), none.size(), 0, 1, 0, 255, 0, 0, records, no_room.data(), no_room.size());
    expect_refused("an empty area, a GA94 unit and no room", made.refusal, CAPTIONS_NO_ROOM);
    made = captions_ga94_replace(none.data(), none.size(), 0, 1, 0, 255, 0, 0, records, out.data(), out.size());
    expect_refused("a GA94 unit put into an empty area", made.refusal, CAPTIONS_ACCEPTED);
    const uint8_t right[] = {0x00, 0x00, 0x01, 0xB2, 0x47, 0x41, 0x39, 0x34, 0x03, 0x40, 0xFF, 0xFF};
    expect("the bytes of that GA94 unit", made.len == sizeof right && std::memcmp(out.data(), right, sizeof right) == 0);
    expect("what stands behind that GA94 unit", out[made.len] == 0xA5);
}

static void packets()
{
    const std::vector<uint16_t> none;
    std::vector<uint16_t> no_room;
    captions_slot slots[CAPTIONS_SLOTS] = {};
    captions_row rows[CAPTIONS_SLOTS];

    std::memset(rows, 0xA5, sizeof rows);
    captions_packet packet = captions_packet_read(none.data(), none.size(), rows);
    expect_refused("a packet of no words", packet.refusal, CAPTIONS_ENDS);
    expect("a refused packet leaves the rows alone", is_all(rows, 0xA5));
    std::memset(rows, 0, sizeof rows);
    captions_written made = captions_packet_write(4660, slots, rows, no_room.data(), no_room.size());
    expect_refused("a packet and no room", made.refusal, CAPTIONS_NO_ROOM);
}

static void multipackets()
{
    const std::vector<uint16_t> none;
    const std::vector<captions_inner> no_inners;
    const std::vector<captions_inner> one(1, captions_inner{10, 1, 0x50, 0x01, 0, 0});
    std::vector<uint16_t> no_room, out(32, 0xA5A5);
    captions_inner inners[CAPTIONS_INNERS];

    std::memset(inners, 0xA5, sizeof inners);
    captions_multi multi = captions_multi_read(none.data(), none.size(), inners);
    expect_refused("a multipacket of no words", multi.refusal, CAPTIONS_ENDS);
    expect("a refused multipacket leaves the inner packets alone", is_all(inners, 0xA5));
    captions_written made = captions_multi_write(1, no_inners.data(), no_inners.size(), none.data(), none.size(), no_room.data(),
                                                 no_room.size());
    expect_refused("a multipacket of no inner packets", made.refusal, CAPTIONS_NO_INNER);
    made = captions_multi_write(256, no_inners.data(), no_inners.size(), none.data(), none.size(), no_room.data(), no_room.size());
    expect_refused("a priority of 256 and no inner packets", made.refusal, CAPTIONS_UNHOLDABLE);
    made = captions_multi_write(1, one.data(), one.size(), none.data(), none.size(), no_room.data(), no_room.size());
    expect_refused("a multipacket and no room", made.refusal, CAPTIONS_NO_ROOM);
    made = captions_multi_write(1, one.data(), one.size(), none.data(), none.size(), out.data(), out.size());
    expect_refused("a multipacket without user words", made.refusal, CAPTIONS_ACCEPTED);
    const uint16_t right[] = {0x000, 0x3FF, 0x3FF, 0x143, 0x203, 0x206, 0x101, 0x12A, 0x250, 0x101, 0x200, 0x151, 0x219};
    expect("the words of that multipacket", made.len == 13 && std::memcmp(out.data(), right, sizeof right) == 0);
    expect("what stands behind that multipacket", out[13] == 0xA5A5);
    multi = captions_multi_read(out.data(), made.len, inners);
    expect_refused("that multipacket is read", multi.refusal, CAPTIONS_ACCEPTED);
    expect("its inner packet", multi.priority == 1 && multi.n == 1 && inners[0].line == 10 && inners[0].field == 1 &&
                                   inners[0].did == 0x50 && inners[0].sdid == 0x01 && inners[0].at == 11 && inners[0].count == 0);
}

static void data_fields()
{
    const std::vector<uint8_t> none;
    const std::vector<uint16_t> no_words;
    std::vector<uint8_t> no_room, out(64, 0xA5);
    captions_slot slots[CAPTIONS_SLOTS] = {};
    captions_row rows[CAPTIONS_SLOTS] = {};
    captions_data_unit units[CAPTIONS_PES_UNITS];

    std::memset(units, 0xA5, sizeof units);
    captions_pes field = captions_pes_read(none.data(), none.size(), units);
    expect_refused("a data field of no bytes", field.refusal, CAPTIONS_ENDS);
    expect("a refused data field leaves the units alone", is_all(units, 0xA5));
    captions_written made = captions_pes_write(0x10, 0, units, no_room.data(), no_room.size());
    expect_refused("a data field and no room", made.refusal, CAPTIONS_NO_ROOM);
    made = captions_pes_write(0x110, 0, units, no_room.data(), no_room.size());
    expect_refused("a data_identifier of 272 and no room", made.refusal, CAPTIONS_UNHOLDABLE);
    made = captions_pes_convert(no_words.data(), no_words.size(), no_room.data(), no_room.size());
    expect_refused("a packet of no words, converted", made.refusal, CAPTIONS_ENDS);
    made = captions_pes_convert_value(4660, slots, rows, no_room.data(), no_room.size());
    expect_refused("a packet's value, converted, and no room", made.refusal, CAPTIONS_NO_ROOM);
    made = captions_pes_convert_value(4660, slots, rows, out.data(), out.size());
    expect_refused("a packet without a full slot, converted", made.refusal, CAPTIONS_ACCEPTED);
    expect("the byte of that data field", made.len == 1 && out[0] == 0x10 && out[1] == 0xA5);

    units[0].data_unit_id = 0x02;
    units[0].of.teletext.field_parity = 1;
    units[0].of.teletext.line_offset = 22;
    std::memset(units[0].of.teletext.row, 0x27, CAPTIONS_ROW_BYTES);
    made = captions_pes_write(0x1F, 1, units, out.data(), out.size());
    expect_refused("a data field of one unit", made.refusal, CAPTIONS_ACCEPTED);
    std::vector<uint8_t> right(47, 0xE4);
    right[0] = 0x1F, right[1] = 0x02, right[2] = 0x2C, right[3] = 0xF6;
    expect("the bytes of that data field", made.len == 47 && std::memcmp(out.data(), right.data(), 47) == 0);
    expect("what stands behind that data field", out[47] == 0xA5);
}

static void payloads()
{
    const std::vector<uint8_t> none;
    std::vector<uint8_t> no_room;
    captions_access_unit units[CAPTIONS_ACCESS_UNITS];

    std::memset(units, 0xA5, sizeof units);
    captions_payload payload = captions_payload_read(none.data(), none.size(), units);
    expect_refused("a payload of no bytes", payload.refusal, CAPTIONS_NO_START);
    expect("a refused payload leaves the units alone", is_all(units, 0xA5));
    captions_written made = captions_payload_write(0, 0, units, no_room.data(), no_room.size());
    expect_refused("a payload and no room", made.refusal, CAPTIONS_NO_ROOM);
}

static void reels()
{
    const std::vector<captions_access_unit> none;
    const std::vector<uint8_t> no_bytes;
    const std::vector<captions_access_unit> run(2, captions_access_unit{1, 0, 0, 0x94, 0x2C, 0x00, 0x00});
    std::vector<uint8_t> no_room, out(64, 0xA5);

    captions_written made = captions_reel_write(0, 1, none.data(), none.size(), no_room.data(), no_room.size());
    expect_refused("a run of no units and no room", made.refusal, CAPTIONS_ACCEPTED);
    expect("a run of no units is no bytes", made.len == 0);
    made = captions_reel_write(0, 292, none.data(), none.size(), no_room.data(), no_room.size());
    expect_refused("a run of no units and a size of 292", made.refusal, CAPTIONS_UNHOLDABLE);
    made = captions_reel_write(0, 1, run.data(), run.size(), no_room.data(), no_room.size());
    expect_refused("a run and no room", made.refusal, CAPTIONS_NO_ROOM);
    made = captions_reel_write_bytes(0, 1, no_bytes.data(), no_bytes.size(), no_room.data(), no_room.size());
    expect_refused("a run of no bytes and no room", made.refusal, CAPTIONS_ACCEPTED);
    expect("a run of no bytes is no bytes", made.len == 0);
    made = captions_reel_write_bytes(0, 0, no_bytes.data(), no_bytes.size(), no_room.data(), no_room.size());
    expect_refused("a run of no bytes and a size of 0", made.refusal, CAPTIONS_UNHOLDABLE);

    made = captions_reel_write(7, 1, run.data(), run.size(), out.data(), out.size());
    expect_refused("a run of two units", made.refusal, CAPTIONS_ACCEPTED);
    const uint8_t right[] = {0x07, 0x80, 0x94, 0x2C, 0x00, 0x00, 0x07, 0x80, 0x94, 0x2C, 0x00, 0x00};
    expect("the bytes of that run", made.len == sizeof right && std::memcmp(out.data(), right, sizeof right) == 0);
    expect("what stands behind that run", out[made.len] == 0xA5);
}

int main()
{
    areas();
    ga94();
    packets();
    multipackets();
    data_fields();
    payloads();
    reels();
    std::printf("empty_vector: %d checks, %d differ; an empty vector gave %s\n", checks, wrong,
                std::vector<uint8_t>().data() == nullptr ? "null" : "a pointer that is not null");
    std::puts(wrong == 0 ? "empty_vector: passed" : "empty_vector: FAILED");
    return wrong == 0 ? 0 : 1;
}
