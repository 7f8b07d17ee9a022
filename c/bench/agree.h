/* agree.h: whether a program of plain C and the library give one answer and leave one lent memory. */
#ifndef AGREE_H
#define AGREE_H

#include "inputs.h"
#include "programs.h"

/* Each calls both programs with the same input and the same lent memory, and compares all that they leave. */
bool agree_area_read(const calls *plain, const area_input *area);
bool agree_unit_write(const calls *plain, const unit_value *v, size_t room);
bool agree_area_replace(const calls *plain, const area_input *area, const unit_value *v, size_t room);
bool agree_ga94_read(const calls *plain, const area_input *area);
bool agree_ga94_write(const calls *plain, const ga94_value *v, size_t room);
bool agree_ga94_replace(const calls *plain, const area_input *area, const ga94_value *v, size_t room);
bool agree_packet_read(const calls *plain, const packet_input *packet);
bool agree_packet_write(const calls *plain, const packet_value *v, size_t room);
bool agree_multi_read(const calls *plain, const multi_input *multi);
bool agree_multi_write(const calls *plain, const multi_value *v, size_t room);
bool agree_pes_read(const calls *plain, const pes_input *pes);
bool agree_pes_write(const calls *plain, const pes_value *v, size_t room);
bool agree_pes_convert(const calls *plain, const packet_input *packet, size_t room);
bool agree_pes_convert_value(const calls *plain, const packet_value *v, size_t room);
bool agree_payload_read(const calls *plain, const payload_input *payload);
bool agree_payload_write(const calls *plain, const payload_value *v, size_t room);
bool agree_reel_write(const calls *plain, const reel_value *v, size_t room);
bool agree_reel_write_bytes(const calls *plain, const reel_value *v, size_t room);
bool agree_film_picture(const calls *plain, const film_value *v);
bool agree_film_close(const calls *plain, const film_value *v);

/* That many random and mutated inputs, the same ones for each program. */
bool agree_on_random(const calls *plain, size_t inputs);

/* How many of all comparisons so far were of inputs refused with each number, 0 for accepted. */
extern size_t agree_numbers[256];

#endif
