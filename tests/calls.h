/* Calls on guarded areas: each area ends at a page that nobody may touch, and has guard bytes before it. */

#ifndef CALLS_H
#define CALLS_H

#include <string.h>
#include <sys/mman.h>
#include <unistd.h>

#include "bench.h"
#include "purse.h"

/* A call's areas; the input is installation data or a command. */
enum { MEMORY, SESSION, INPUT, RANDOM, RESPONSE, AREAS };

enum { ROOM = 1 << 16, GUARD = 0xA5, GUARDS = 64 };

/* An area of any length up to one byte more than card memory has. */
struct area {
    size_t len;
    uint8_t bytes[PURSE_MEMORY + 1];
};

struct call {
    unsigned kind;
    struct area areas[AREAS];
    size_t limit;
};

static uint8_t *rooms[AREAS];

static inline void make_rooms(void)
{
    size_t page = (size_t)sysconf(_SC_PAGESIZE);

    for (int i = 0; i < AREAS; i++) {
        rooms[i] = mmap(NULL, ROOM + page, PROT_READ | PROT_WRITE, MAP_PRIVATE | MAP_ANONYMOUS, -1, 0);
        if (rooms[i] == MAP_FAILED || mprotect(rooms[i] + ROOM, page, PROT_NONE) != 0) {
            perror("mmap");
            exit(2);
        }
        memset(rooms[i], GUARD, ROOM);
    }
}

static inline bool same(const struct area *a, const struct area *b)
{
    return a->len == b->len && memcmp(a->bytes, b->bytes, a->len) == 0;
}

static inline bool is_filled(const uint8_t *bytes, size_t len, uint8_t value)
{
    for (size_t i = 0; i < len; i++)
        if (bytes[i] != value)
            return false;
    return true;
}

/* Makes a call. `kept` says whether the guards, and what is only read, are as they were. */
static inline uint64_t make(struct call *call, bool *kept)
{
    const struct area input = call->areas[INPUT], random = call->areas[RANDOM];
    struct area *a = call->areas;
    uint8_t *at[AREAS];
    uint64_t result;

    for (int i = 0; i < AREAS; i++)
        at[i] = memcpy(rooms[i] + ROOM - a[i].len, a[i].bytes, a[i].len);
    if (call->kind == INSTALLATION)
        result = purse_install(at[MEMORY], a[MEMORY].len, at[SESSION], a[SESSION].len, at[INPUT], a[INPUT].len,
                               call->limit);
    else if (call->kind == START_UP)
        result = purse_start_up(at[MEMORY], a[MEMORY].len, at[SESSION], a[SESSION].len, call->limit);
    else
        result = purse_command(at[MEMORY], a[MEMORY].len, at[SESSION], a[SESSION].len, at[INPUT], a[INPUT].len,
                               at[RANDOM], a[RANDOM].len, at[RESPONSE], a[RESPONSE].len, call->limit);
    *kept = true;
    for (int i = 0; i < AREAS; i++) {
        *kept &= is_filled(at[i] - GUARDS, GUARDS, GUARD);
        memcpy(a[i].bytes, at[i], a[i].len);
        memset(at[i], GUARD, a[i].len);
    }
    *kept &= same(&input, &a[INPUT]) && same(&random, &a[RANDOM]);
    return result;
}

#endif
