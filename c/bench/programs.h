/* programs.h: the programs that are compared: plain C by one compiler or by two, and the library. */
#ifndef PROGRAMS_H
#define PROGRAMS_H

#include "../captions.h"

/* The twenty calls of one program. */
typedef struct calls {
    captions_unit (*area_read)(const uint8_t *, size_t, captions_record *);
    captions_written (*unit_write)(uint32_t, uint32_t, size_t, size_t, const captions_record *, uint8_t *, size_t);
    captions_written (*area_replace)(const uint8_t *, size_t, uint32_t, uint32_t, size_t, size_t,
                                     const captions_record *, uint8_t *, size_t);
    captions_ga94_unit (*ga94_read)(const uint8_t *, size_t, captions_ga94_record *);
    captions_written (*ga94_write)(uint32_t, uint32_t, uint32_t, uint32_t, size_t, size_t, const captions_ga94_record *,
                                   uint8_t *, size_t);
    captions_written (*ga94_replace)(const uint8_t *, size_t, uint32_t, uint32_t, uint32_t, uint32_t, size_t, size_t,
                                     const captions_ga94_record *, uint8_t *, size_t);
    captions_packet (*packet_read)(const uint16_t *, size_t, captions_row *);
    captions_written (*packet_write)(uint32_t, const captions_slot *, const captions_row *, uint16_t *, size_t);
    captions_multi (*multi_read)(const uint16_t *, size_t, captions_inner *);
    captions_written (*multi_write)(uint32_t, const captions_inner *, size_t, const uint16_t *, size_t, uint16_t *,
                                    size_t);
    captions_pes (*pes_read)(const uint8_t *, size_t, captions_data_unit *);
    captions_written (*pes_write)(uint32_t, size_t, const captions_data_unit *, uint8_t *, size_t);
    captions_written (*pes_convert)(const uint16_t *, size_t, uint8_t *, size_t);
    captions_written (*pes_convert_value)(uint32_t, const captions_slot *, const captions_row *, uint8_t *, size_t);
    captions_payload (*payload_read)(const uint8_t *, size_t, captions_access_unit *);
    captions_written (*payload_write)(uint32_t, size_t, const captions_access_unit *, uint8_t *, size_t);
    captions_written (*reel_write)(uint32_t, size_t, const captions_access_unit *, size_t, uint8_t *, size_t);
    captions_written (*reel_write_bytes)(uint32_t, size_t, const uint8_t *, size_t, uint8_t *, size_t);
    captions_film_sent (*film_picture)(captions_film *, uint32_t, uint32_t, uint32_t, uint32_t, uint32_t, size_t,
                                       size_t, const captions_record *, captions_access_unit *);
    captions_film_sent (*film_close)(captions_film *, captions_access_unit *);
} calls;

/* Plain C as one compiler compiled it, which tells its own name. */
typedef struct plain_program {
    const char *compiler;
    const char *version;
    calls own;
    calls memchr; /* the same, but for the search of area_read */
} plain_program;

/* By gcc, and by clang where there is one. */
enum { MOST_PLAIN = 2 };
extern const plain_program *const plain_programs[];
extern const size_t plain_count;

extern const calls library_calls;

#endif
