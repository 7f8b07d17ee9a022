/*
 * guard.h: memory to lend, between guards.
 *
 * A piece is lent at the very end of an arena or at its very front. Behind the end and before the front stand pages that
 * may not be touched, so that one byte read or stored too far on that side ends the program. On the other side stand known
 * bytes, which are looked at after each call.
 */
#ifndef GUARD_H
#define GUARD_H

#include <stdbool.h>
#include <stddef.h>
#include <stdint.h>

enum {
    GUARD_BYTE = 0xA5,
    GUARD_NEAR = 64 /* how many bytes beside a piece are looked at after each call */
};

typedef enum side { AT_END, AT_FRONT } side;

typedef struct arena {
    uint8_t *front; /* the first byte, behind an untouchable page */
    uint8_t *end;   /* the untouchable page behind the last byte */
    uint8_t *lent;  /* the piece lent now */
    size_t size;
} arena;

/* Makes an arena of at least `size` bytes, or ends the program. */
void arena_open(arena *a, size_t size);

/* Lends `size` bytes. The pointer is never null. With size 0 at the end it is the first untouchable byte. */
uint8_t *arena_lend(arena *a, side at, size_t size);

/* Whether the bytes beside the lent piece are as they were. */
bool arena_near_is_whole(const arena *a);

/* Whether all bytes but the lent ones are as they were. */
bool arena_is_whole(const arena *a);

/* Ends the loan. The piece and the bytes beside it become guard bytes again. */
void arena_take_back(arena *a);

/* From now on a touch of an untouchable page prints `guard_asking` and ends the program with status 1. */
void guard_catch(void);
extern char guard_asking[256];

#endif
