/*
 * Images that were kept because an answer to them was new. That is feedback by answers: it knows nothing of which parts of the
 * engine ran, so it is no measure of coverage.
 */
#ifndef FUZZ_CORPUS_H
#define FUZZ_CORPUS_H

#include "verdict.h"

size_t corpus_size(void);
void forget_corpus(void);

/* Copies an image that was kept; false if there is none. */
int draw_kept(struct image *image);

/* Keeps the image if no case since the corpus was forgotten had such a verdict and such a run, `frames` records touched. */
void keep_if_new(const struct image *image, const struct answer *verdict, const struct answer *run, size_t frames);

#endif
