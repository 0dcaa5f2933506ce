/*
 * Numbers in no order, out of a seed. Each case draws from a stream of its own, so that what one case draws changes no other. No
 * expression draws twice where C leaves the order open: a case is then the same whichever compiler built the fuzzer.
 */
#ifndef FUZZ_RANDOM_H
#define FUZZ_RANDOM_H

#include <stddef.h>
#include <stdint.h>

#define COUNT(table) (sizeof(table) / sizeof((table)[0]))
#define PICK(table) ((table)[below(COUNT(table))])

void start_stream(uint64_t seed, uint64_t number);
uint64_t any_word(void);

/* A number under `bound`; 0 if the bound is 0. */
uint64_t below(uint64_t bound);

/* Both ends are among what is drawn. */
uint64_t between(uint64_t low, uint64_t high);

/* True once in so many draws. */
int one_in(uint64_t times);

/* A word of any size: numbers of few bits as often as those of many, and the edges of each type. */
uint64_t any_number(void);

/* Spreads every bit of a word over all bits of the result. */
uint64_t mixed(uint64_t word);

#endif
