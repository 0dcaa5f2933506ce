/*
 * What one case consists of: an image, made in one of several ways, and settings.
 */
#ifndef FUZZ_INPUT_H
#define FUZZ_INPUT_H

#include "settings.h"

#include <stdio.h>

struct input {
    struct image image;
    struct fault fault; /* of the image, number 0 for none */
    struct limits limits;
    struct terms terms;
    uint32_t lesson;
    uint64_t digest;
    size_t out_len;
};

void draw_input(struct input *input);
void tell_input(const struct input *input, FILE *to);

#endif
