/*
 * fuzz SEED SECONDS: calls the C boundary with arbitrary bytes, sizes and settings for so long, and holds every call to what
 * document 01 and the header promise.
 * fuzz SEED --cases COUNT: the same with so many cases, however long they take.
 * fuzz SEED --case NUMBER: makes that case again, with its input printed first.
 *
 * The exit status is 0 if nothing was found, 1 if something was, and 2 for wrong use or where the fuzzer itself can't go on.
 */
#define _POSIX_C_SOURCE 200809L /* for clock_gettime, which C99 alone hides */

#include "check.h"
#include "corpus.h"
#include "random.h"
#include "tally.h"
#include "watch.h"

#include <errno.h>
#include <inttypes.h>
#include <math.h>
#include <stdlib.h>
#include <string.h>
#include <time.h>

/* The corpus grows out of the cases before, so a case depends on them. It is forgotten after so many: a case then depends on no
 * more than these, and can be made again in seconds. */
#define GENERATION 131072

#define PROGRESS_SECONDS 10
#define COMPLETE_CASES 200000 /* among so many every answer must have occurred, however slow the machine is */

static uint64_t seed;
static struct input input;

static void tell_case(FILE *to)
{
    tell_input(&input, to);
}

static void begin_case(uint64_t number)
{
    if (number % GENERATION == 0)
        forget_corpus();
    start_stream(seed, number);
    watch_case(number);
    draw_input(&input);
}

static void check_case(void)
{
    struct answer verdict = check_validate(&input);
    struct run run = check_execute(&input, verdict.number == KNIT_ADMITTED);
    check_any_digest();
    check_event_id(&input);
    keep_if_new(&input.image, &verdict, &run.answer, run.records);
}

static double seconds_now(void)
{
    struct timespec now;
    clock_gettime(CLOCK_MONOTONIC, &now);
    return (double)now.tv_sec + (double)now.tv_nsec / 1e9;
}

static int run_for(double seconds, uint64_t count)
{
    double start = seconds_now(), told = start, now = start;
    uint64_t number;
    for (number = 0; number < count && now - start < seconds; number++) {
        begin_case(number);
        check_case();
        now = seconds_now();
        if (now - told >= PROGRESS_SECONDS) {
            fprintf(stderr, "fuzz: %.0f s, %" PRIu64 " cases, %" PRIu64 " calls, corpus %lu\n", now - start, number + 1,
                calls_made(), (unsigned long)corpus_size());
            told = now;
        }
    }
    printf("fuzz: seed %" PRIu64 ", %" PRIu64 " cases, %" PRIu64 " calls, %.0f seconds, corpus %lu, nothing wrong\n", seed, number,
        calls_made(), now - start, (unsigned long)corpus_size());
    tell_tally();
    return number < COMPLETE_CASES || all_occurred(number) ? 0 : 1;
}

static int run_case(uint64_t chosen)
{
    uint64_t number;
    for (number = chosen - chosen % GENERATION; number < chosen; number++) {
        begin_case(number);
        check_case();
    }
    begin_case(chosen);
    tell_case(stdout);
    fflush(stdout);
    check_case();
    printf("fuzz: seed %" PRIu64 ", case %" PRIu64 ": nothing wrong\n", seed, chosen);
    return 0;
}

static uint64_t number_of(const char *text)
{
    char *end;
    uint64_t number;
    errno = 0;
    number = strtoull(text, &end, 10);
    if (*text < '0' || *text > '9' || *end != 0 || errno != 0) {
        fprintf(stderr, "fuzz: %s is no number\n", text);
        exit(2);
    }
    return number;
}

int main(int argc, char **argv)
{
    int is_case = argc == 4 && strcmp(argv[2], "--case") == 0;
    if (argc != 3 && !is_case && (argc != 4 || strcmp(argv[2], "--cases") != 0)) {
        fprintf(stderr, "fuzz: usage: fuzz SEED SECONDS, fuzz SEED --cases COUNT, or fuzz SEED --case NUMBER\n");
        return 2;
    }
    seed = number_of(argv[1]);
    make_arenas();
    start_watch(seed, tell_case);
    if (is_case)
        return run_case(number_of(argv[3]));
    return argc == 3 ? run_for((double)number_of(argv[2]), UINT64_MAX) : run_for(HUGE_VAL, number_of(argv[3]));
}
