/*
 * plain.h: the twenty calls of captions.h in plain C, to measure the library against.
 *
 * Each does the same work as its namesake: the checks of docs/RULES.md in their order, the same refusals and places,
 * the same answers, and no lent memory changed in a refusal.
 */
#ifndef PLAIN_H
#define PLAIN_H

#include "../captions.h"

captions_unit plain_area_read(const uint8_t *area, size_t len, captions_record records[static CAPTIONS_RECORDS]);

/*
 * The same with the C library's memchr as the search. In glibc that is vector assembler, chosen at run time, and so no
 * plain C: it is measured apart.
 */
captions_unit plain_area_read_memchr(const uint8_t *area, size_t len, captions_record records[static CAPTIONS_RECORDS]);

captions_written plain_unit_write(uint32_t reserved, uint32_t vbi_data_flag, size_t n, size_t z,
                                  const captions_record records[static CAPTIONS_RECORDS],
                                  uint8_t *out, size_t room);

captions_written plain_area_replace(const uint8_t *area, size_t len,
                                    uint32_t reserved, uint32_t vbi_data_flag, size_t n, size_t z,
                                    const captions_record records[static CAPTIONS_RECORDS],
                                    uint8_t *out, size_t room);

captions_ga94_unit plain_ga94_read(const uint8_t *area, size_t len, captions_ga94_record records[static CAPTIONS_RECORDS]);

captions_written plain_ga94_write(uint32_t process_em_data_flag, uint32_t process_cc_data_flag,
                                  uint32_t additional_data_flag, uint32_t em_data, size_t n, size_t z,
                                  const captions_ga94_record records[static CAPTIONS_RECORDS],
                                  uint8_t *out, size_t room);

captions_written plain_ga94_replace(const uint8_t *area, size_t len,
                                    uint32_t process_em_data_flag, uint32_t process_cc_data_flag,
                                    uint32_t additional_data_flag, uint32_t em_data, size_t n, size_t z,
                                    const captions_ga94_record records[static CAPTIONS_RECORDS],
                                    uint8_t *out, size_t room);

captions_packet plain_packet_read(const uint16_t *words, size_t len,
                                  captions_row rows[static CAPTIONS_SLOTS]);

captions_written plain_packet_write(uint32_t counter, const captions_slot slots[static CAPTIONS_SLOTS],
                                    const captions_row rows[static CAPTIONS_SLOTS],
                                    uint16_t *out, size_t room);

captions_multi plain_multi_read(const uint16_t *words, size_t len, captions_inner inners[static CAPTIONS_INNERS]);

captions_written plain_multi_write(uint32_t priority, const captions_inner *inners, size_t n,
                                   const uint16_t *words, size_t len, uint16_t *out, size_t room);

captions_pes plain_pes_read(const uint8_t *field, size_t len, captions_data_unit units[static CAPTIONS_PES_UNITS]);

captions_written plain_pes_write(uint32_t data_identifier, size_t n,
                                 const captions_data_unit units[static CAPTIONS_PES_UNITS],
                                 uint8_t *out, size_t room);

captions_written plain_pes_convert(const uint16_t *words, size_t len, uint8_t *out, size_t room);

captions_written plain_pes_convert_value(uint32_t counter, const captions_slot slots[static CAPTIONS_SLOTS],
                                         const captions_row rows[static CAPTIONS_SLOTS],
                                         uint8_t *out, size_t room);

captions_payload plain_payload_read(const uint8_t *payload, size_t len,
                                    captions_access_unit units[static CAPTIONS_ACCESS_UNITS]);

captions_written plain_payload_write(uint32_t flags, size_t m,
                                     const captions_access_unit units[static CAPTIONS_ACCESS_UNITS],
                                     uint8_t *out, size_t room);

captions_written plain_reel_write(uint32_t flags, size_t size, const captions_access_unit *units, size_t n,
                                  uint8_t *out, size_t room);

captions_written plain_reel_write_bytes(uint32_t flags, size_t size, const uint8_t *units, size_t len,
                                        uint8_t *out, size_t room);

captions_film_sent plain_film_picture(captions_film *film, uint32_t top_field_first, uint32_t repeat_first_field,
                                      uint32_t line_offset, uint32_t reserved, uint32_t vbi_data_flag, size_t n, size_t z,
                                      const captions_record records[static CAPTIONS_RECORDS],
                                      captions_access_unit units[static CAPTIONS_FILM_UNITS]);

captions_film_sent plain_film_close(captions_film *film, captions_access_unit units[static CAPTIONS_FILM_UNITS]);

#endif
