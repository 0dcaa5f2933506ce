/*
 * What is running, so that a crash, a call that does not return and a broken promise are all told with the seed and the case that
 * show it. Each of them ends the program with status 1.
 */
#ifndef FUZZ_WATCH_H
#define FUZZ_WATCH_H

#include <stdint.h>
#include <stdio.h>

/* `tell_case` prints what a case consists of. */
void start_watch(uint64_t seed, void (*tell_case)(FILE *to));
void watch_case(uint64_t number);

/* Around each call of the engine, with the function's name. */
void enter_call(const char *function);
void leave_call(void);
uint64_t calls_made(void);

/* Tells which promise the last call broke, and ends the program. */
#if defined(__GNUC__)
__attribute__((noreturn, format(printf, 1, 2)))
#endif
void wrong(const char *format, ...);

#endif
