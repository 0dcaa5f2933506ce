/*
 * How often each answer occurred, so that a fuzzer that no longer reaches something is noticed.
 */
#ifndef FUZZ_TALLY_H
#define FUZZ_TALLY_H

#include <stdint.h>

/* A number that the function may give, and the status of a run, whatever it is. */
void count_number(uint64_t number);
void count_status(uint64_t status);

/* Prints how often each number and each status occurred. */
void tell_tally(void);

/* Whether every answer of the C boundary occurred in so many cases; says which did not. */
int all_occurred(uint64_t cases);

#endif
