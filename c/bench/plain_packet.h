/* plain_packet.h: what the packet's writer and the conversion into a data field share. */
#ifndef PLAIN_PACKET_H
#define PLAIN_PACKET_H

#include "plain.h"

/* What a packet's value is refused for in writing, but for the room: 15 or 7, and 0 where it is legal. */
uint8_t plain_judge_packet(uint32_t counter, const captions_slot slots[static CAPTIONS_SLOTS],
                           const captions_row rows[static CAPTIONS_SLOTS]);

#endif
