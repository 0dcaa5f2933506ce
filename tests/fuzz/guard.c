#define _DEFAULT_SOURCE 1 /* for MAP_ANONYMOUS, which C99 alone hides */

#include "guard.h"

#include "random.h"

#include <stdio.h>
#include <stdlib.h>
#include <string.h>
#include <sys/mman.h>
#include <unistd.h>

#define OFFSETS 64 /* in between, a slice begins at any of so many bytes */

static void give_up(const char *why)
{
    perror(why);
    exit(2);
}

static void protect(const struct arena *arena, int protection)
{
    if (mprotect(arena->start, (size_t)(arena->end - arena->start), protection) != 0)
        give_up("mprotect");
}

void make_arena(struct arena *arena, size_t len)
{
    size_t page = (size_t)sysconf(_SC_PAGESIZE), whole = (len + OFFSETS + 2 * GUARD_BYTES + page - 1) / page * page;
    uint8_t *all = mmap(NULL, whole + 2 * page, PROT_NONE, MAP_PRIVATE | MAP_ANONYMOUS, -1, 0);
    if ((void *)all == MAP_FAILED)
        give_up("mmap");
    arena->start = all + page;
    arena->end = arena->start + whole;
    protect(arena, PROT_READ | PROT_WRITE);
}

void forbid_writing(const struct arena *arena)
{
    protect(arena, PROT_READ);
}

void allow_writing(const struct arena *arena)
{
    protect(arena, PROT_READ | PROT_WRITE);
}

static uint8_t *place_of(const struct arena *arena, size_t len, size_t alignment)
{
    switch (below(4)) {
    case 0:
        return arena->end - len;
    case 1:
        return arena->start;
    default:
        return arena->start + GUARD_BYTES + alignment * below(OFFSETS / alignment);
    }
}

/* Beside a page that may not be touched a slice has fewer bytes around it, or none. */
static size_t bytes_before(const struct lent *lent)
{
    size_t room = (size_t)(lent->at - lent->arena->start);
    return room < GUARD_BYTES ? room : GUARD_BYTES;
}

static size_t bytes_after(const struct lent *lent)
{
    size_t room = (size_t)(lent->arena->end - lent->at) - lent->len;
    return room < GUARD_BYTES ? room : GUARD_BYTES;
}

static void draw_pattern(uint8_t *pattern, uint64_t salt)
{
    size_t i;
    for (i = 0; i < GUARD_BYTES / sizeof salt; i++) {
        uint64_t word = mixed(salt + i);
        memcpy(pattern + i * sizeof word, &word, sizeof word);
    }
}

void lay(struct lent *lent, const struct arena *arena, size_t len, size_t alignment)
{
    uint8_t pattern[GUARD_BYTES];
    lent->arena = arena;
    lent->len = len;
    lent->at = place_of(arena, len, alignment);
    lent->salt = any_word();
    draw_pattern(pattern, lent->salt);
    memcpy(lent->at - bytes_before(lent), pattern, bytes_before(lent));
    memcpy(lent->at + len, pattern, bytes_after(lent));
}

int guards_stand(const struct lent *lent)
{
    uint8_t pattern[GUARD_BYTES];
    draw_pattern(pattern, lent->salt);
    return memcmp(lent->at - bytes_before(lent), pattern, bytes_before(lent)) == 0
        && memcmp(lent->at + lent->len, pattern, bytes_after(lent)) == 0;
}
