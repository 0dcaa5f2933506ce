#include "random.h"

#define ODD_STEP 0x9e3779b97f4a7c15u

static uint64_t state;

/* The end of splitmix64. */
uint64_t mixed(uint64_t word)
{
    word = (word ^ word >> 30) * 0xbf58476d1ce4e5b9u;
    word = (word ^ word >> 27) * 0x94d049bb133111ebu;
    return word ^ word >> 31;
}

void start_stream(uint64_t seed, uint64_t number)
{
    state = mixed(mixed(seed + ODD_STEP) ^ mixed(number * ODD_STEP + 1));
}

uint64_t any_word(void)
{
    state += ODD_STEP;
    return mixed(state);
}

uint64_t below(uint64_t bound)
{
    return bound == 0 ? 0 : any_word() % bound;
}

uint64_t between(uint64_t low, uint64_t high)
{
    return low + below(high - low + 1);
}

int one_in(uint64_t times)
{
    return below(times) == 0;
}

uint64_t any_number(void)
{
    static const uint64_t edges[] = {0, 1, 2, 0x7f, 0x80, 0xff, 0x100, 0x7fff, 0x8000, 0xffff, 0x10000, 0x7fffffff, 0x80000000u,
        0xffffffffu, 0x100000000u, 0x7fffffffffffffffu, 0x8000000000000000u, UINT64_MAX};
    if (one_in(4))
        return PICK(edges);
    return any_word() >> below(64);
}
