/*
 * Memory to lend: slices between a pattern and, at some places, a page that may not be touched. The pattern shows a write beside
 * the slice, the page a read as well.
 */
#ifndef FUZZ_GUARD_H
#define FUZZ_GUARD_H

#include <stddef.h>
#include <stdint.h>

#define GUARD_BYTES 128

struct arena {
    uint8_t *start, *end; /* pages that may be used, with one page that may not be touched on either side */
};

struct lent {
    const struct arena *arena;
    uint8_t *at;
    size_t len;
    uint64_t salt; /* the pattern around this slice, and around no other */
};

/* Makes an arena that holds a slice of so many bytes at every place. */
void make_arena(struct arena *arena, size_t len);

/* Lays a slice up to the arena's end, from its start, or in between at a multiple of `alignment`, with a new pattern around it. */
void lay(struct lent *lent, const struct arena *arena, size_t len, size_t alignment);

/* Whether the bytes around the slice are as lay left them. */
int guards_stand(const struct lent *lent);

/* Makes every write to the arena a crash, and lets it be written again. */
void forbid_writing(const struct arena *arena);
void allow_writing(const struct arena *arena);

#endif
