#define _DEFAULT_SOURCE 1 /* for sigaction, sigaltstack and setitimer, which C99 alone hides */

#include "watch.h"

#include <signal.h>
#include <stdarg.h>
#include <stdlib.h>
#include <string.h>
#include <sys/time.h>
#include <unistd.h>

/* Fuel bounds how long a call takes: most take microseconds, and a loop of calls into 65,535 registers about half a second. */
#define STUCK_SECONDS 5
#define STACK_BYTES 65536

static uint64_t seed;
static volatile uint64_t current_case, calls;
static const char *volatile current_function = "";
static volatile sig_atomic_t in_call;
static void (*tell_current)(FILE *to);

/* ---- Telling from a signal handler: only calls that one may make there ---- */

static void put_text(const char *text)
{
    if (write(2, text, strlen(text)) < 0)
        _exit(2);
}

static void put_decimal(uint64_t number)
{
    char digits[21];
    char *at = digits + sizeof digits - 1;
    *at = 0;
    do
        *--at = (char)('0' + number % 10);
    while ((number /= 10) != 0);
    put_text(at);
}

static void put_where(void)
{
    put_text("; seed ");
    put_decimal(seed);
    put_text(", case ");
    put_decimal(current_case);
    put_text("; again: tests/fuzz/run ARCHIVE_DIR ");
    put_decimal(seed);
    put_text(" --case ");
    put_decimal(current_case);
    put_text("\n");
}

/* A crash outside a call is the fuzzer's own fault, which must not be taken for a finding. */
static void crashed(int signal_number)
{
    put_text(in_call ? "fuzz: wrong: " : "fuzz: the fuzzer itself, after ");
    put_text(current_function);
    put_text(": signal ");
    put_decimal((uint64_t)signal_number);
    if (signal_number == SIGSEGV || signal_number == SIGBUS)
        put_text(", memory that it was not lent, a write to the image, or too deep a stack");
    put_where();
    _exit(in_call ? 1 : 2);
}

/* Ticks are of the processor's time and not of a clock, so that a machine that is busy with other work is no finding. */
static void ticked(int signal_number)
{
    static uint64_t seen;
    static int ticks;
    (void)signal_number;
    if (!in_call || calls != seen) {
        seen = calls;
        ticks = 0;
    } else if (++ticks >= STUCK_SECONDS) {
        put_text("fuzz: wrong: ");
        put_text(current_function);
        put_text(": has not returned in ");
        put_decimal(STUCK_SECONDS);
        put_text(" seconds of the processor");
        put_where();
        _exit(1);
    }
}

static void give_up(const char *why)
{
    perror(why);
    exit(2);
}

static void handle(int signal_number, void (*handler)(int), int flags)
{
    struct sigaction action;
    memset(&action, 0, sizeof action);
    action.sa_handler = handler;
    action.sa_flags = flags;
    sigemptyset(&action.sa_mask);
    if (sigaction(signal_number, &action, NULL) != 0)
        give_up("sigaction");
}

void start_watch(uint64_t chosen, void (*tell_case)(FILE *to))
{
    static const int crashes[] = {SIGSEGV, SIGBUS, SIGABRT, SIGFPE, SIGILL, SIGTRAP};
    static char stack[STACK_BYTES]; /* of its own, since a call that uses up the stack leaves none */
    static const struct itimerval each_second = {{1, 0}, {1, 0}};
    stack_t alternate;
    size_t i;
    seed = chosen;
    tell_current = tell_case;
    memset(&alternate, 0, sizeof alternate);
    alternate.ss_sp = stack;
    alternate.ss_size = sizeof stack;
    if (sigaltstack(&alternate, NULL) != 0)
        give_up("sigaltstack");
    for (i = 0; i < sizeof crashes / sizeof crashes[0]; i++)
        handle(crashes[i], crashed, SA_ONSTACK);
    handle(SIGPROF, ticked, SA_ONSTACK | SA_RESTART);
    if (setitimer(ITIMER_PROF, &each_second, NULL) != 0)
        give_up("setitimer");
}

/* ---- Telling from the program ---- */

void watch_case(uint64_t number)
{
    current_case = number;
}

void enter_call(const char *function)
{
    current_function = function;
    calls++;
    in_call = 1;
}

void leave_call(void)
{
    in_call = 0;
}

uint64_t calls_made(void)
{
    return calls;
}

void wrong(const char *format, ...)
{
    va_list rest;
    fflush(stdout);
    fprintf(stderr, "fuzz: wrong: %s: ", current_function);
    va_start(rest, format);
    vfprintf(stderr, format, rest);
    va_end(rest);
    fflush(stderr);
    put_where();
    tell_current(stderr);
    exit(1);
}
