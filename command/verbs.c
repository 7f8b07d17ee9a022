/* The table of verbs, with what --help says of each. An example needs no file; the tests run it. */
#include "verbs.h"

#include <stddef.h>

static const char bits[] = "places are bits of the area";
static const char words_of_packet[] = "places are words";

const verb verbs[] = {
    {
        "area", TAKES_FROM | TAKES_JSON | TAKES_VALUE, false, bits, list_area,
        "list the SCTE 20 captions of a picture's user data area",
        "Lists the SCTE 20 caption unit of a picture's user data area: a line for each\n"
        "construct, with its priority, display field, line offset and two bytes. An\n"
        "area without such a unit prints `none`.\n",
        "    $ echo 00 00 01 B2 03 81 08 AC A4 D2 00 | captions area -f hex\n"
        "    priority field line data\n"
        "    0 1 11 94 2C\n",
    },
    {
        "ga94", TAKES_FROM | TAKES_JSON | TAKES_VALUE, false, bits, list_ga94,
        "list the GA94 (ATSC) captions of the same area",
        "Lists the GA94 caption unit of a picture's user data area: its flags and\n"
        "em_data, then a line for each construct. An area without such a unit prints\n"
        "`none`.\n",
        "    $ echo 000001B2 47413934 03 41 FF FC 94 2C FF | captions ga94 -f hex\n"
        "    process_em_data_flag 0 process_cc_data_flag 1 em_data FF\n"
        "    valid type data\n"
        "    1 0 94 2C\n",
    },
    {
        "packet", TAKES_FROM | TAKES_JSON, true, words_of_packet, list_packet,
        "list an RDD 8 (OP-47) subtitling packet",
        "Lists the five slots of an RDD 8 (OP-47) subtitling packet, each with its line,\n"
        "its field (1 odd, 0 even) and, where it is full, its 42 bytes.\n",
        "    $ { echo 000 3FF 3FF 143 102 10D 151 115 10D 102 200 200 200 200 200\n"
        "    >   echo 274 200 200 217 252; } | captions packet -f hex\n"
        "    counter 0\n"
        "    slot full line reserved field data\n"
        "    0 0 0 0 0\n"
        "    1 0 0 0 0\n"
        "    2 0 0 0 0\n"
        "    3 0 0 0 0\n"
        "    4 0 0 0 0\n",
    },
    {
        "multi", TAKES_FROM | TAKES_JSON, true, words_of_packet, list_multi,
        "list an RDD 8 multipacket",
        "Lists the inner packets of an RDD 8 multipacket: line, field, identifiers and\n"
        "user bytes of each.\n",
        "    $ { echo 000 3FF 3FF 143 203 107 101 12A 250 101 101 200 252 11C\n"
        "    > } | captions multi -f hex\n"
        "    priority 1\n"
        "    inner line field did sdid data\n"
        "    0 10 1 50 01 00\n",
    },
    {
        "payload", TAKES_FROM | TAKES_JSON, false, "the place is the length of the payload", list_payload,
        "list a Line 21 RTP payload",
        "Lists the access units of a Line 21 RTP payload, which is what follows the RTP\n"
        "header: two valid flags, the padding, two bytes of field 1 and two of field 2.\n",
        "    $ echo 00 80942C0000 | captions payload -f hex\n"
        "    flags 00\n"
        "    valid_1 valid_2 padding field1 field2\n"
        "    1 0 0 94 2C 00 00\n",
    },
    {
        "pes", TAKES_FROM | TAKES_JSON, false, "places are bytes", list_pes,
        "list a PES data field with teletext (EN 300 472)",
        "Lists the units of a PES data field. The bytes of teletext are those that a\n"
        "packet has for them, and not in reverse as in the stream; those of stuffing\n"
        "are as in the stream.\n",
        "    $ echo 10 | captions pes -f hex\n"
        "    data_identifier 10\n"
        "    unit id parity line data\n",
    },
    {
        "replace", TAKES_FROM | TAKES_TO | TAKES_UNIT, false, bits, replace_unit,
        "put an SCTE 20 caption unit into an area",
        "Puts a caption unit in the place of the old one, or behind the last byte of an\n"
        "area that has none. All other units pass byte for byte. WORDS are RESERVED\n"
        "FLAG Z, and for each construct PRIORITY FIELD LINE DATA DATA.\n",
        "    $ echo 00 00 01 B2 03 80 |\n"
        "    > captions replace -f hex -t hex --unit '64 1 0  0 1 11 94 2C'\n"
        "    000001B2038108ACA4D200\n",
    },
    {
        "ga94-replace", TAKES_FROM | TAKES_TO | TAKES_UNIT, false, bits, replace_ga94,
        "put a GA94 caption unit into an area",
        "Puts a GA94 unit in the place of the old one, or behind the last byte of an\n"
        "area that has none. All other units pass byte for byte. WORDS are PROCESS_EM\n"
        "PROCESS_CC ADDITIONAL EM_DATA Z, and for each construct VALID TYPE DATA DATA.\n",
        "    $ echo 00 00 01 B2 03 80 |\n"
        "    > captions ga94-replace -f hex -t hex --unit '0 1 0 FF 0  1 0 94 2C'\n"
        "    000001B20380000001B2474139340341FFFC942CFF\n",
    },
    {
        "film", TAKES_JSON | TAKES_EACH, false, bits, carry_film,
        "carry film pictures into access units",
        "Carries a run of film pictures into access units. There is a line for each\n"
        "picture, TOP_FIELD_FIRST REPEAT_FIRST_FIELD LINE_OFFSET and the area in hex;\n"
        "or `close`, which ends the run. A slot that waits behind the last line is\n"
        "printed as `waiting VALID DATA DATA`, which may be the first line of a run\n"
        "that goes on. A picture that is refused refuses the whole run.\n",
        "    $ printf '1 0 11 000001B2038108ACA4D200\\nclose\\n' | captions film\n"
        "    valid_1 valid_2 padding field1 field2\n"
        "    1 0 0 94 2C 00 00\n",
    },
    {
        "reel", TAKES_TO | TAKES_FLAGS | TAKES_SIZE, false, NULL, make_reel,
        "make Line 21 payloads of access units",
        "Makes payloads of access units, one behind the other. The units come in the\n"
        "lines that `payload`, `reel-list` and `film` print.\n",
        "    $ printf '1 0 0 94 2C 00 00\\n0 1 0 00 00 15 2C\\n' |\n"
        "    > captions reel --size 1 -t hex\n"
        "    0080942C000000400000152C\n",
    },
    {
        "reel-list", TAKES_FROM | TAKES_JSON | TAKES_SIZE, false, "the place is the length of that payload", list_reel,
        "list payloads that stand one behind the other",
        "Lists payloads that stand one behind the other, as `reel` makes them, each as\n"
        "`payload` lists it. The last may have fewer units than the others.\n",
        "    $ echo 0080942C0000 00400000152C | captions reel-list --size 1 -f hex\n"
        "    flags 00\n"
        "    valid_1 valid_2 padding field1 field2\n"
        "    1 0 0 94 2C 00 00\n"
        "    flags 00\n"
        "    valid_1 valid_2 padding field1 field2\n"
        "    0 1 0 00 00 15 2C\n",
    },
    {
        "to-pes", TAKES_FROM | TAKES_TO, true, words_of_packet, convert_to_pes,
        "convert a subtitling packet into a PES data field",
        "Converts the teletext of an RDD 8 subtitling packet into a PES data field of\n"
        "EN 300 472: a unit for each full slot.\n",
        "    $ { echo 000 3FF 3FF 143 102 10D 151 115 10D 102 200 200 200 200 200\n"
        "    >   echo 274 200 200 217 252; } | captions to-pes -f hex -t hex\n"
        "    10\n",
    },
    { 0 },
};
