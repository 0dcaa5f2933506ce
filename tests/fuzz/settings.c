#include "settings.h"

#include "knitcauldron.h"
#include "random.h"

const struct limits safe_limits = {256, 256, 64, 8192, 1000000};

/* A limit at its edges: none, the least, the safe one, the highest that is allowed, one more, and the highest of its type. */
static uint64_t any_limit(uint64_t safe, uint64_t highest, uint64_t most)
{
    uint64_t edges[] = {0, 1, 0, 0, 0, 0};
    if (!one_in(8))
        return safe;
    edges[2] = safe;
    edges[3] = highest;
    edges[4] = highest + 1;
    edges[5] = most;
    return PICK(edges);
}

/* A number or one to either side of it, so that a limit is met, kept to and passed. */
static uint64_t close_to(uint64_t number)
{
    return number + below(3) - (number > 0);
}

static struct function any_function(const struct image *image)
{
    return function_at(image, (uint32_t)below(functions_of(image)));
}

struct limits any_limits(const struct image *image, int is_image)
{
    struct limits limits;
    limits.registers = (uint16_t)any_limit(safe_limits.registers, 16384, UINT16_MAX);
    limits.functions = (uint16_t)any_limit(safe_limits.functions, 4096, UINT16_MAX);
    limits.call_depth = (uint16_t)any_limit(safe_limits.call_depth, 1024, UINT16_MAX);
    limits.instrs = (uint32_t)any_limit(safe_limits.instrs, 1000000, UINT32_MAX);
    limits.fuel = any_limit(safe_limits.fuel, 1000000000, UINT64_MAX);
    if (!is_image || functions_of(image) == 0 || !one_in(4))
        return limits;
    switch (below(3)) {
    case 0:
        limits.registers = (uint16_t)close_to(any_function(image).regs);
        break;
    case 1:
        limits.functions = (uint16_t)close_to(functions_of(image));
        break;
    default:
        limits.instrs = (uint32_t)close_to(any_function(image).count);
        break;
    }
    return limits;
}

/* A program may loop, and then its fuel alone bounds how long a call takes. */
static uint64_t any_fuel(int surely_ends)
{
    if (surely_ends && one_in(2))
        return any_number();
    if (one_in(400))
        return 100000;
    switch (below(8)) {
    case 0:
        return below(3);
    case 1:
    case 2:
    case 3:
        return below(60);
    default:
        return below(one_in(8) ? 4000 : 500);
    }
}

static size_t any_frames_len(void)
{
    if (one_in(1000))
        return (size_t)below(FRAME_ROOM + 1);
    return (size_t)below(one_in(3) ? 20 : 301);
}

static size_t any_registers_len(void)
{
    if (one_in(1000))
        return (size_t)below(REGISTER_ROOM + 1);
    return (size_t)below(one_in(20) ? 5001 : one_in(3) ? 30 : 300);
}

struct terms any_terms(const struct image *image, int is_image)
{
    static const uint16_t depths[] = {0, 1, 2, 3, 8, 64, 64, 64, 1024, UINT16_MAX};
    int entry_exists = is_image && entry_of(image) < functions_of(image);
    struct terms terms;
    terms.fuel = any_fuel(!entry_exists);
    terms.depth = PICK(depths);
    terms.frames_len = any_frames_len();
    terms.registers_len = any_registers_len();
    if (entry_exists && one_in(8))
        terms.registers_len = (size_t)close_to(function_at(image, entry_of(image)).regs);
    return terms;
}
