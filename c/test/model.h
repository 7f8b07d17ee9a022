/*
 * model.h: the twenty calls of captions.h once more, written from documents 01, 02 and 003, the sources of docs/RULES.md.
 *
 * The model shares nothing with the library but the types of captions.h. It is meant to be read beside RULES: one check
 * after the other, in the order of checks, bit by bit, and slow.
 */
#ifndef MODEL_H
#define MODEL_H

#include "captions.h"

captions_unit model_area_read(const uint8_t *area, size_t len, captions_record *records);

captions_written model_unit_write(uint32_t reserved, uint32_t vbi_data_flag, size_t n, size_t z,
                                  const captions_record *records, uint8_t *out, size_t room);

/* What writing and film refuse a caption unit's value for: 15, 7, 8 or 9, and 0 where it is legal. */
uint8_t model_judge_value(uint32_t reserved, uint32_t vbi_data_flag, size_t n, size_t z, const captions_record *records);

captions_written model_area_replace(const uint8_t *area, size_t len, uint32_t reserved, uint32_t vbi_data_flag, size_t n,
                                    size_t z, const captions_record *records, uint8_t *out, size_t room);

captions_ga94_unit model_ga94_read(const uint8_t *area, size_t len, captions_ga94_record *records);

captions_written model_ga94_write(uint32_t process_em_data_flag, uint32_t process_cc_data_flag, uint32_t additional_data_flag,
                                  uint32_t em_data, size_t n, size_t z, const captions_ga94_record *records, uint8_t *out,
                                  size_t room);

captions_written model_ga94_replace(const uint8_t *area, size_t len, uint32_t process_em_data_flag,
                                    uint32_t process_cc_data_flag, uint32_t additional_data_flag, uint32_t em_data, size_t n,
                                    size_t z, const captions_ga94_record *records, uint8_t *out, size_t room);

captions_packet model_packet_read(const uint16_t *words, size_t len, captions_row *rows);

captions_written model_packet_write(uint32_t counter, const captions_slot *slots, const captions_row *rows,
                                    uint16_t *out, size_t room);

/* What a packet and a multipacket share. A word of SMPTE 291M: b8 the even parity of b7 to b0, b9 the inverse of b8. */
bool model_word_is_right(uint16_t word);

/* CS by itself, b8 of which belongs to the sum and is no parity; and CS behind the words that it covers, nine bits of each. */
bool model_cs_is_formed(uint16_t word);
bool model_cs_is_right(const uint16_t *words, size_t count, uint16_t cs);

/*
 * What the rules over the user words of a subtitling packet refuse them with, 13 of them at least: user byte i is
 * bytes[LAYOUT_USER + i]. The place is the word of a packet that has them.
 */
captions_refusal model_judge_user(const uint8_t *bytes, size_t count);

captions_multi model_multi_read(const uint16_t *words, size_t len, captions_inner *inners);

captions_written model_multi_write(uint32_t priority, const captions_inner *inners, size_t n, const uint16_t *words, size_t len,
                                   uint16_t *out, size_t room);

captions_pes model_pes_read(const uint8_t *field, size_t len, captions_data_unit *units);

captions_written model_pes_write(uint32_t data_identifier, size_t n, const captions_data_unit *units, uint8_t *out, size_t room);

captions_written model_pes_convert(const uint16_t *words, size_t len, uint8_t *out, size_t room);

captions_written model_pes_convert_value(uint32_t counter, const captions_slot *slots, const captions_row *rows, uint8_t *out,
                                         size_t room);

captions_payload model_payload_read(const uint8_t *payload, size_t len, captions_access_unit *units);

captions_written model_payload_write(uint32_t flags, size_t m, const captions_access_unit *units, uint8_t *out, size_t room);

/* What writing refuses a payload for: 15 or 14, and 0 where it can be written. */
uint8_t model_judge_payload(uint32_t flags, size_t m, const captions_access_unit *units, size_t room);

captions_written model_reel_write(uint32_t flags, size_t size, const captions_access_unit *units, size_t n, uint8_t *out,
                                  size_t room);

captions_written model_reel_write_bytes(uint32_t flags, size_t size, const uint8_t *units, size_t len, uint8_t *out,
                                        size_t room);

captions_film_sent model_film_picture(captions_film *film, uint32_t top_field_first, uint32_t repeat_first_field,
                                      uint32_t line_offset, uint32_t reserved, uint32_t vbi_data_flag, size_t n, size_t z,
                                      const captions_record *records, captions_access_unit *units);

captions_film_sent model_film_close(captions_film *film, captions_access_unit *units);

#endif
