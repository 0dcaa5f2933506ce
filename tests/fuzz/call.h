/*
 * The four functions, each called on memory between guards, with what holds of every call looked at: the number is one that the
 * function may give, nothing beside the lent memory changed, and the image neither. Where each slice lies is drawn anew for each
 * call, so that a call made twice is made at two places.
 */
#ifndef FUZZ_CALL_H
#define FUZZ_CALL_H

#include "settings.h"
#include "verdict.h"

/* The words of frames and registers that are lent to a run, or that it left. */
struct words {
    uint64_t frames[FRAME_ROOM], registers[REGISTER_ROOM];
};

#define OUT_ROOM 64

void make_arenas(void);

struct answer call_validate(const struct image *image, const struct limits *limits);

/* `after` gets the lent words as the call leaves them. */
struct answer call_execute(const struct image *image, const struct terms *terms, const struct words *before, struct words *after);

uint64_t call_digest(const uint64_t *words);

/* `out` holds `len` bytes as they are before the call, and as they are after it. */
struct answer call_event_id(uint32_t lesson, uint64_t digest, uint8_t *out, size_t len);

#endif
