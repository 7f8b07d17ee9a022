/* guard.c: see guard.h. */
#define _GNU_SOURCE /* MAP_ANONYMOUS */
#include "guard.h"

#include <signal.h>
#include <stdio.h>
#include <stdlib.h>
#include <string.h>
#include <sys/mman.h>
#include <unistd.h>

char guard_asking[256];

void arena_open(arena *a, size_t size)
{
    const size_t page = 65536; /* no page is larger, also where an emulator runs on large pages */
    size_t room = (size + GUARD_NEAR + page - 1) / page * page;
    uint8_t *all = mmap(NULL, room + 2 * page, PROT_NONE, MAP_PRIVATE | MAP_ANONYMOUS, -1, 0);

    if (all == MAP_FAILED || mprotect(all + page, room, PROT_READ | PROT_WRITE) != 0) {
        perror("arena_open");
        exit(1);
    }
    a->front = a->lent = all + page;
    a->end = a->front + room;
    a->size = 0;
    memset(a->front, GUARD_BYTE, room);
}

uint8_t *arena_lend(arena *a, side at, size_t size)
{
    if (size > (size_t)(a->end - a->front) - GUARD_NEAR) {
        fprintf(stderr, "arena_lend: %zu bytes are more than the arena has\n", size);
        exit(1);
    }
    a->lent = at == AT_END ? a->end - size : a->front;
    a->size = size;
    return a->lent;
}

static bool are_guard_bytes(const uint8_t *from, const uint8_t *to)
{
    while (from < to)
        if (*from++ != GUARD_BYTE)
            return false;
    return true;
}

/* The near bytes from before the piece to behind it, as far as the arena goes. */
static uint8_t *near_front(const arena *a)
{
    return a->lent - a->front < GUARD_NEAR ? a->front : a->lent - GUARD_NEAR;
}

static uint8_t *near_end(const arena *a)
{
    uint8_t *behind = a->lent + a->size;

    return a->end - behind < GUARD_NEAR ? a->end : behind + GUARD_NEAR;
}

bool arena_near_is_whole(const arena *a)
{
    return are_guard_bytes(near_front(a), a->lent) && are_guard_bytes(a->lent + a->size, near_end(a));
}

bool arena_is_whole(const arena *a)
{
    return are_guard_bytes(a->front, a->lent) && are_guard_bytes(a->lent + a->size, a->end);
}

void arena_take_back(arena *a)
{
    uint8_t *from = near_front(a);

    memset(from, GUARD_BYTE, (size_t)(near_end(a) - from));
    a->size = 0;
}

/* Only calls that a signal handler may make. */
static void on_fault(int signal_number)
{
    static const char text[] = "memory outside of what was lent was touched: ";

    (void)signal_number;
    if (write(STDERR_FILENO, text, sizeof text - 1) < 0 || write(STDERR_FILENO, guard_asking, strlen(guard_asking)) < 0 ||
        write(STDERR_FILENO, "\n", 1) < 0)
        _exit(2);
    _exit(1);
}

void guard_catch(void)
{
    struct sigaction action;

    memset(&action, 0, sizeof action);
    action.sa_handler = on_fault;
    sigaction(SIGSEGV, &action, NULL);
    sigaction(SIGBUS, &action, NULL);
}
