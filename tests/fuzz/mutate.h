/*
 * Images made from others by a few changes: of bytes, which mostly break an image, and of whole records, which mostly leave one.
 */
#ifndef FUZZ_MUTATE_H
#define FUZZ_MUTATE_H

#include "image.h"

/* Changes the image in one to some places. The other image may lend it instructions. */
void mutate(struct image *image, const struct image *other);

#endif
