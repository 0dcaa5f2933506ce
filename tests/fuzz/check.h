/*
 * What document 01 and the header promise, held to the calls of one case. A promise that is broken ends the program; see watch.h.
 */
#ifndef FUZZ_CHECK_H
#define FUZZ_CHECK_H

#include "call.h"
#include "input.h"

/* Returns the verdict under the safe limits, which the image's other answers are held to. */
struct answer check_validate(const struct input *input);

/* What a run showed: its answer, and how much of the lent memory it wrote, which is always its beginning. */
struct run {
    struct answer answer;
    size_t records, registers;
};

/* A program that was admitted is promised more. */
struct run check_execute(const struct input *input, int admitted);

/* Holds the records that a run left to its answer: they must be those of one chain of calls and of functions that returned, and the
 * running one must stand where a run can end so. */
void check_stack(const struct input *input, const struct run *run, const struct words *words, int admitted);

/* Of a run's first four words, and of any. */
void check_digest(const uint64_t *words, uint64_t digest);
void check_any_digest(void);

void check_event_id(const struct input *input);

void expect_answer(const char *why, const struct answer *expected, const struct answer *got);

#endif
