/* programs.c: see programs.h. */
#include "programs.h"

extern const plain_program plain_first;

#ifdef ONE_COMPILER
const plain_program *const plain_programs[] = {&plain_first};
#else
extern const plain_program plain_second;

const plain_program *const plain_programs[] = {&plain_first, &plain_second};
#endif

const size_t plain_count = sizeof plain_programs / sizeof plain_programs[0];

const calls library_calls = {
    captions_area_read,    captions_unit_write,    captions_area_replace, captions_ga94_read,
    captions_ga94_write,   captions_ga94_replace,  captions_packet_read,  captions_packet_write,
    captions_multi_read,   captions_multi_write,   captions_pes_read,     captions_pes_write,
    captions_pes_convert,  captions_pes_convert_value,
    captions_payload_read, captions_payload_write, captions_reel_write,   captions_reel_write_bytes,
    captions_film_picture, captions_film_close,
};
