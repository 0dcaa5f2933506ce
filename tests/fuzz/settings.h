/*
 * The numbers that a call takes besides an image: a profile's limits, and what a run may use up.
 */
#ifndef FUZZ_SETTINGS_H
#define FUZZ_SETTINGS_H

#include "image.h"

struct limits {
    uint16_t registers, functions, call_depth;
    uint32_t instrs;
    uint64_t fuel;
};

struct terms {
    uint64_t fuel;
    uint16_t depth;
    size_t frames_len, registers_len;
};

/* So many words can be lent at most. */
#define FRAME_ROOM (4 * 65535)
#define REGISTER_ROOM (256 * 1024)

extern const struct limits safe_limits;

/* Both take what the image holds into account, if it is one: what is interesting lies close to that. */
struct limits any_limits(const struct image *image, int is_image);
struct terms any_terms(const struct image *image, int is_image);

#endif
