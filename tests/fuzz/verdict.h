/*
 * What knit_validate must answer, read from document 01's sections "Admission" and "What a call may answer" alone.
 */
#ifndef FUZZ_VERDICT_H
#define FUZZ_VERDICT_H

#include "knitcauldron.h"
#include "settings.h"

struct answer {
    uint64_t number;
    uint64_t words[KNIT_ANSWER_WORDS];
};

/* An answer whose first words are these three; a number with fewer values leaves them 0. */
struct answer answer_of(uint64_t number, uint64_t first, uint64_t second, uint64_t third);

struct answer verdict_on(const struct image *image, const struct limits *limits);

#endif
