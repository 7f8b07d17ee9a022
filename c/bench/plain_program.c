/*
 * plain_program.c: the plain calls as one program; see programs.h. It and the other plain files are compiled by each
 * compiler. Of each such set only this table keeps its name for the linker: PLAIN_PROGRAM, which the build tells.
 */
#include "plain.h"
#include "programs.h"

#ifdef __clang__
#define COMPILER "clang"
#define VERSION __clang_version__
#else
#define COMPILER "gcc"
#define VERSION __VERSION__
#endif

#define CALLS_WITH(area_read)                                                                    \
    {                                                                                            \
        area_read,           plain_unit_write,  plain_area_replace, plain_ga94_read,             \
        plain_ga94_write,    plain_ga94_replace, plain_packet_read, plain_packet_write,          \
        plain_multi_read,    plain_multi_write, plain_pes_read,     plain_pes_write,             \
        plain_pes_convert,   plain_pes_convert_value,                                            \
        plain_payload_read,  plain_payload_write, plain_reel_write, plain_reel_write_bytes,      \
        plain_film_picture,  plain_film_close,                                                   \
    }

extern const plain_program PLAIN_PROGRAM;

const plain_program PLAIN_PROGRAM = {
    COMPILER,
    VERSION,
    CALLS_WITH(plain_area_read),
    CALLS_WITH(plain_area_read_memchr),
};
