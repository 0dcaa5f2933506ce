/*
 * knit_validate as a caller in C or C++ sees it. What is admitted is proved elsewhere; here it is checked that arguments and
 * answers pass the boundary whole, and that the call touches no memory but the answer's five words.
 */
#include "boundary.h"

struct limits {
    uint16_t registers, functions, call_depth;
    uint32_t instrs;
    uint64_t fuel;
};

#define SAFE {256, 256, 64, 8192, 1000000}
static const struct limits safe = SAFE;
static const struct limits all_zero = {0, 0, 0, 0, 0};

/* One call on an image that lies at `at`. */
static int call_is_right(const uint8_t *at, size_t len, const struct limits *limits, const struct expected *expected)
{
    struct lent_answer lent;
    uint64_t number;
    fill_answer(&lent);
    number = knit_validate(at, len, limits->registers, limits->functions, limits->call_depth, limits->instrs, limits->fuel,
        lent.words);
    return answer_is_right(&lent, number, expected);
}

static int place_is_right(int place, const struct image *image, const struct limits *limits, const struct expected *expected)
{
    const uint8_t *at = lay_image(image, place);
    return call_is_right(at, image->len, limits, expected) && image_is_right(at, image);
}

static void check(const char *name, const struct image *image, const struct limits *limits, const struct expected *expected)
{
    int place = 0;
    start_case(name);
    while (place < PLACES && place_is_right(place, image, limits, expected))
        place++;
    end_case(place == PLACES);
}

/* ---- Limits, with document 01's image: one function, 1 register, 2 instructions ---- */

static const struct limits_case {
    const char *name;
    struct limits limits;
    struct expected expected;
} limits_cases[] = {
    {"document 01's image, safe limits", SAFE, {KNIT_ADMITTED, {0}}},
    {"the least limits that hold it", {1, 1, 1, 2, 1}, {KNIT_ADMITTED, {0}}},
    {"one instruction less", {1, 1, 1, 1, 1}, {KNIT_TOO_MANY_INSTRUCTIONS, {0, 2, 1}}},
    {"the highest limits", {16384, 4096, 1024, 1000000, 1000000000}, {KNIT_ADMITTED, {0}}},
    {"no registers", {0, 256, 64, 8192, 1000000}, {KNIT_PROFILE, {0, 1}}},
    {"no functions", {256, 0, 64, 8192, 1000000}, {KNIT_PROFILE, {0, 2}}},
    {"no call depth", {256, 256, 0, 8192, 1000000}, {KNIT_PROFILE, {0, 3}}},
    {"no instructions", {256, 256, 64, 0, 1000000}, {KNIT_PROFILE, {0, 4}}},
    {"no fuel", {256, 256, 64, 8192, 0}, {KNIT_PROFILE, {0, 5}}},
    {"registers too high", {16385, 256, 64, 8192, 1000000}, {KNIT_PROFILE, {1, 1}}},
    {"functions too high", {256, 4097, 64, 8192, 1000000}, {KNIT_PROFILE, {1, 2}}},
    {"call depth too high", {256, 256, 1025, 8192, 1000000}, {KNIT_PROFILE, {1, 3}}},
    {"instructions too high", {256, 256, 64, 1000001, 1000000}, {KNIT_PROFILE, {1, 4}}},
    {"fuel too high", {256, 256, 64, 8192, 1000000001}, {KNIT_PROFILE, {1, 5}}},
    {"fuel 2^32, zero in its low half", {256, 256, 64, 8192, 4294967296u}, {KNIT_PROFILE, {1, 5}}},
    {"instructions 2^16, zero in its low half", {256, 256, 64, 65536, 1000000}, {KNIT_ADMITTED, {0}}},
    {"zeros are looked for before high ones", {65535, 65535, 65535, 4294967295u, 0}, {KNIT_PROFILE, {0, 5}}},
    {"all as high as their types", {65535, 65535, 65535, 4294967295u, UINT64_MAX}, {KNIT_PROFILE, {1, 1}}},
};

static void run_limits_cases(struct image *image)
{
    size_t i;
    put_document_01(image);
    for (i = 0; i < COUNT(limits_cases); i++)
        check(limits_cases[i].name, image, &limits_cases[i].limits, &limits_cases[i].expected);
}

/* Image faults come before the limits, so limits that are themselves refused must not change the answer. */
static void check_fault(const char *name, const struct image *image, const struct expected *expected)
{
    check(name, image, &safe, expected);
    check(name, image, &all_zero, expected);
}

/* ---- Counts and the entry, in programs whose functions are all alike ---- */

static const struct size_case {
    const char *name;
    struct limits limits;
    uint16_t entry;
    uint32_t functions;
    uint16_t regs;
    uint32_t each;
    struct expected expected;
} size_cases[] = {
    {"no function", SAFE, 0, 0, 0, 0, {KNIT_EMPTY_PROGRAM, {0}}},
    {"profile before no function", {0, 0, 0, 0, 0}, 0, 0, 0, 0, {KNIT_PROFILE, {0, 1}}},
    {"no function before the entry", SAFE, 9, 0, 0, 0, {KNIT_EMPTY_PROGRAM, {0}}},
    {"256 functions", SAFE, 0, 256, 1, 1, {KNIT_ADMITTED, {0}}},
    {"257 functions", SAFE, 0, 257, 1, 1, {KNIT_TOO_MANY_FUNCTIONS, {257, 256}}},
    {"65,537 functions, 1 in the low half", SAFE, 0, 65537, 1, 0, {KNIT_TOO_MANY_FUNCTIONS, {65537, 256}}},
    {"too many functions before the entry", {256, 1, 64, 8192, 1000000}, 9, 2, 1, 1, {KNIT_TOO_MANY_FUNCTIONS, {2, 1}}},
    {"too many functions before a function's fault", {256, 1, 64, 8192, 1000000}, 0, 2, 0, 1, {KNIT_TOO_MANY_FUNCTIONS, {2, 1}}},
    {"the last function as the entry", SAFE, 2, 3, 1, 1, {KNIT_ADMITTED, {0}}},
    {"an entry just past the functions", SAFE, 3, 3, 1, 1, {KNIT_INVALID_ENTRY, {3}}},
    {"entry 65,535", SAFE, 65535, 3, 1, 1, {KNIT_INVALID_ENTRY, {65535}}},
    {"the entry before a function's fault", SAFE, 1, 1, 0, 1, {KNIT_INVALID_ENTRY, {1}}},
    {"256 registers", SAFE, 0, 1, 256, 1, {KNIT_ADMITTED, {0}}},
    {"257 registers", SAFE, 0, 1, 257, 1, {KNIT_TOO_MANY_REGISTERS, {0, 257, 256}}},
    {"65,535 registers", SAFE, 0, 1, 65535, 1, {KNIT_TOO_MANY_REGISTERS, {0, 65535, 256}}},
    {"8,192 instructions", SAFE, 0, 1, 1, 8192, {KNIT_ADMITTED, {0}}},
    {"8,193 instructions", SAFE, 0, 1, 1, 8193, {KNIT_TOO_MANY_INSTRUCTIONS, {0, 8193, 8192}}},
    {"registers before instructions", SAFE, 0, 1, 257, 8193, {KNIT_TOO_MANY_REGISTERS, {0, 257, 256}}},
    {"instructions before one's own fault", {256, 256, 64, 1, 1000000}, 0, 1, 0, 2, {KNIT_TOO_MANY_INSTRUCTIONS, {0, 2, 1}}},
};

static void run_size_cases(struct image *image)
{
    size_t i;
    for (i = 0; i < COUNT(size_cases); i++) {
        const struct size_case *row = &size_cases[i];
        put_alike(image, row->entry, row->functions, row->regs, row->each);
        check(row->name, image, &row->limits, &row->expected);
    }
}

/* ---- Verdicts on one function, which stands after `before` good ones of 1 register and a Ret; under the safe limits ---- */

static const struct code_case {
    const char *name;
    uint32_t before;
    uint16_t regs;
    uint32_t count;
    struct instr code[3];
    struct expected expected;
} code_cases[] = {
    {"P: a lone Nop, no registers", 0, 0, 1, {NOP}, {KNIT_MISSING_RETURN, {0}}},
    {"P: a lone Ret, no registers", 0, 0, 1, {RET(0)}, {KNIT_INVALID_REGISTER, {0, 0}}},
    {"P: a Call of itself, arg_base 1", 0, 1, 2, {CALL(0, 0, 1, 0), RET(0)}, {KNIT_ADMITTED, {0}}},
    {"P: a Call of itself, arg_base 2", 0, 1, 2, {CALL(0, 0, 2, 0), RET(0)}, {KNIT_INVALID_ARG_WINDOW, {0, 2, 0}}},
    {"no instructions", 0, 1, 0, {NOP}, {KNIT_MISSING_RETURN, {0}}},
    {"a later function without Ret", 7, 1, 1, {NOP}, {KNIT_MISSING_RETURN, {7}}},
    {"a Ret that is not last", 0, 1, 2, {RET(0), NOP}, {KNIT_ADMITTED, {0}}},
    {"a bad register before the missing Ret", 0, 1, 2, {NOP, ASSERT(1)}, {KNIT_INVALID_REGISTER, {0, 1}}},
    {"the last register", 0, 256, 2, {LOAD_UNIT(255), RET(255)}, {KNIT_ADMITTED, {0}}},
    {"one past the last register", 0, 256, 2, {LOAD_UNIT(256), RET(0)}, {KNIT_INVALID_REGISTER, {0, 256}}},
    {"register 65,535", 3, 256, 1, {RET(65535)}, {KNIT_INVALID_REGISTER, {3, 65535}}},
    {"a load's value is no register", 0, 1, 2, {LOAD_U32(0, UINT32_MAX), RET(0)}, {KNIT_ADMITTED, {0}}},
    {"dst before lhs and rhs", 0, 3, 2, {I32_ADD(3, 4, 5), RET(0)}, {KNIT_INVALID_REGISTER, {0, 3}}},
    {"lhs before rhs", 0, 3, 2, {I32_ADD(2, 4, 5), RET(0)}, {KNIT_INVALID_REGISTER, {0, 4}}},
    {"rhs", 0, 3, 2, {I32_ADD(2, 2, 5), RET(0)}, {KNIT_INVALID_REGISTER, {0, 5}}},
    {"dst before src", 0, 3, 2, {MOVE(3, 4), RET(0)}, {KNIT_INVALID_REGISTER, {0, 3}}},
    {"src", 0, 3, 2, {MOVE(2, 4), RET(0)}, {KNIT_INVALID_REGISTER, {0, 4}}},
    {"a jump to the last instruction", 1, 1, 2, {JUMP(1), RET(0)}, {KNIT_ADMITTED, {0}}},
    {"a jump just past its function", 1, 1, 2, {JUMP(2), RET(0)}, {KNIT_INVALID_JUMP, {1, 2}}},
    {"a jump to 2^32 - 1", 0, 1, 2, {JUMP(UINT32_MAX), RET(0)}, {KNIT_INVALID_JUMP, {0, UINT32_MAX}}},
    {"a jump to 2^16, 0 in its low half", 0, 1, 2, {JUMP(65536), RET(0)}, {KNIT_INVALID_JUMP, {0, 65536}}},
    {"the condition before the target", 0, 1, 2, {JUMP_IF_TRUE(1, 9), RET(0)}, {KNIT_INVALID_REGISTER, {0, 1}}},
    {"the target after the condition", 0, 1, 2, {JUMP_IF_TRUE(0, 9), RET(0)}, {KNIT_INVALID_JUMP, {0, 9}}},
    {"a Call's dst before its target", 0, 1, 2, {CALL(1, 9, 9, 9), RET(0)}, {KNIT_INVALID_REGISTER, {0, 1}}},
    {"a Call of the last function", 4, 1, 2, {CALL(0, 4, 0, 0), RET(0)}, {KNIT_ADMITTED, {0}}},
    {"a Call just past the functions", 4, 1, 2, {CALL(0, 5, 9, 9), RET(0)}, {KNIT_INVALID_CALL, {4, 5}}},
    {"a Call of function 65,535", 0, 1, 2, {CALL(0, 65535, 0, 0), RET(0)}, {KNIT_INVALID_CALL, {0, 65535}}},
    {"arguments up to the last register", 0, 4, 2, {CALL(0, 0, 1, 3), RET(0)}, {KNIT_ADMITTED, {0}}},
    {"arguments past the last register", 0, 4, 2, {CALL(0, 0, 1, 4), RET(0)}, {KNIT_INVALID_ARG_WINDOW, {0, 1, 4}}},
    {"arguments up to 2^16, which 16 bits lose", 0, 4, 2, {CALL(0, 0, 65535, 1), RET(0)}, {KNIT_INVALID_ARG_WINDOW, {0, 65535, 1}}},
    {"65,535 arguments", 0, 4, 2, {CALL(0, 0, 0, 65535), RET(0)}, {KNIT_INVALID_ARG_WINDOW, {0, 0, 65535}}},
    {"as many arguments as the callee has registers", 1, 4, 2, {CALL(0, 0, 2, 1), RET(0)}, {KNIT_ADMITTED, {0}}},
    {"more arguments than the callee has registers", 1, 4, 2, {CALL(0, 0, 2, 2), RET(0)}, {KNIT_INVALID_ARG_WINDOW, {1, 2, 2}}},
};

static void put_code(struct image *image, const struct code_case *row)
{
    uint32_t i;
    put_header(image, 0, row->before + 1, row->before + row->count);
    for (i = 0; i < row->before; i++)
        put_function(image, 1, i, 1);
    put_function(image, row->regs, row->before, row->count);
    for (i = 0; i < row->before; i++)
        put_ret_0(image);
    for (i = 0; i < row->count; i++)
        put_instr(image, &row->code[i]);
}

static void run_code_cases(struct image *image)
{
    size_t i;
    for (i = 0; i < COUNT(code_cases); i++) {
        put_code(image, &code_cases[i]);
        check(code_cases[i].name, image, &safe, &code_cases[i].expected);
    }
}

/* ---- Slices about as long as 2^32 bytes ---- */

static const struct huge_case {
    const char *name;
    uint64_t len;
    uint32_t instrs; /* of the one function */
    struct expected expected;
} huge_cases[] = {
    {"2 instructions in 2^32 - 1 bytes", 4294967295u, 2, {KNIT_LAYOUT, {0}}},
    {"2 instructions in 2^32 bytes", 4294967296u, 2, {KNIT_LAYOUT, {0}}},
    {"2 instructions in 2^32 + 64 bytes, 64 in the low half", 4294967360u, 2, {KNIT_LAYOUT, {0}}},
    {"the longest image", 4294967284u, 357913937, {KNIT_TOO_MANY_INSTRUCTIONS, {0, 357913937, 8192}}},
    {"one instruction more, of which 32 bits leave total 0", 4294967296u, 357913938, {KNIT_LAYOUT, {0}}},
};

static void run_huge_cases(struct image *image)
{
    uint8_t *huge = map_huge();
    size_t i;
    for (i = 0; i < COUNT(huge_cases); i++) {
        lay_nops(huge, image, huge_cases[i].instrs);
        start_case(huge_cases[i].name);
        end_case(call_is_right(huge, (size_t)huge_cases[i].len, &safe, &huge_cases[i].expected));
    }
    unmap_huge(huge);
}

int main(void)
{
    static struct image image;
    start_tests();
    run_limits_cases(&image);
    each_image_fault(&image, check_fault);
    run_size_cases(&image);
    run_code_cases(&image);
    run_huge_cases(&image);
    return end_tests("knit_validate");
}
