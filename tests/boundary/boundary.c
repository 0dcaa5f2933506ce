#define _DEFAULT_SOURCE 1 /* for MAP_ANONYMOUS, which C99 alone hides */

#include "boundary.h"

#include <signal.h>
#include <stdio.h>
#include <stdlib.h>
#include <string.h>
#include <sys/mman.h>
#include <unistd.h>

#ifdef __cplusplus
#define LANGUAGE "C++"
#else
#define LANGUAGE "C"
#endif

/* ---- Images ---- */

static const struct instr nop = NOP;
static const struct instr ret_0 = RET(0);

static const uint8_t document_01[64] = {
    0x01, 0x00, 0x00, 0x00, 0x01, 0x00, 0x00, 0x00, 0x02, 0x00, 0x00, 0x00, 0x18, 0x00, 0x00, 0x00,
    0x28, 0x00, 0x00, 0x00, 0x40, 0x00, 0x00, 0x00, 0x07, 0x00, 0x00, 0x00, 0x01, 0x00, 0x00, 0x00,
    0x00, 0x00, 0x00, 0x00, 0x02, 0x00, 0x00, 0x00, 0x06, 0x00, 0x00, 0x00, 0x00, 0x00, 0x00, 0x00,
    0xff, 0xff, 0xff, 0xff, 0x37, 0x00, 0x00, 0x00, 0x00, 0x00, 0x00, 0x00, 0x00, 0x00, 0x00, 0x00};

void set_number(struct image *image, size_t at, int width, uint32_t value)
{
    int i;
    for (i = 0; i < width; i++)
        image->bytes[at + (size_t)i] = (uint8_t)(value >> (8 * i));
}

static void put_number(struct image *image, int width, uint32_t value)
{
    set_number(image, image->len, width, value);
    image->len += (size_t)width;
}

void put_header(struct image *image, uint16_t entry, uint32_t functions, uint32_t instrs)
{
    image->len = 0;
    put_number(image, 2, 1);
    put_number(image, 2, entry);
    put_number(image, 4, functions);
    put_number(image, 4, instrs);
    put_number(image, 4, 24);
    put_number(image, 4, 24 + 16 * functions);
    put_number(image, 4, 24 + 16 * functions + 12 * instrs);
}

void put_function(struct image *image, uint16_t regs, uint32_t first, uint32_t count)
{
    put_number(image, 4, 1000 + first); /* a name, which nothing here depends on */
    put_number(image, 2, regs);
    put_number(image, 2, 0);
    put_number(image, 4, first);
    put_number(image, 4, count);
}

void put_instr(struct image *image, const struct instr *instr)
{
    put_number(image, 1, instr->op);
    put_number(image, 1, instr->small);
    put_number(image, 2, instr->a);
    put_number(image, 2, instr->b);
    put_number(image, 2, instr->c);
    put_number(image, 4, instr->w);
}

void put_alike(struct image *image, uint16_t entry, uint32_t functions, uint16_t regs, uint32_t each)
{
    uint32_t f, i;
    put_header(image, entry, functions, functions * each);
    for (f = 0; f < functions; f++)
        put_function(image, regs, f * each, each);
    for (f = 0; f < functions; f++)
        for (i = 1; i <= each; i++)
            put_instr(image, i < each ? &nop : &ret_0);
}

void put_ret_0(struct image *image)
{
    put_instr(image, &ret_0);
}

void put_document_01(struct image *image)
{
    memcpy(image->bytes, document_01, sizeof document_01);
    image->len = sizeof document_01;
}

/* ---- Memory ---- */

static struct arena image_arena;

static const char *volatile current = "before the first case";
static unsigned long cases, wrong;

void give_up(const char *why)
{
    perror(why);
    exit(2);
}

static size_t page_size(void)
{
    return (size_t)sysconf(_SC_PAGESIZE);
}

static void protect(uint8_t *start, size_t len, int protection)
{
    if (mprotect(start, len, protection) != 0)
        give_up("mprotect");
}

void make_arena(struct arena *arena, size_t len)
{
    size_t page = page_size();
    uint8_t *all;
    arena->len = (len + page - 1) / page * page;
    all = (uint8_t *)mmap(NULL, arena->len + 2 * page, PROT_NONE, MAP_PRIVATE | MAP_ANONYMOUS, -1, 0);
    if ((void *)all == MAP_FAILED)
        give_up("mmap");
    arena->start = all + page;
    arena->end = arena->start + arena->len;
    protect(arena->start, arena->len, PROT_READ | PROT_WRITE);
}

/* Memory is all alike if its first byte is right and each other one equals the byte before it. */
int all_filled(const uint8_t *bytes, size_t len)
{
    return len == 0 || (bytes[0] == FILL && memcmp(bytes, bytes + 1, len - 1) == 0);
}

static uint8_t *image_place(const struct image *image, int place)
{
    if (place == 0)
        return image_arena.end - image->len;
    return place == 1 ? image_arena.start : image_arena.start + 1;
}

const uint8_t *lay_image(const struct image *image, int place)
{
    uint8_t *at = image_place(image, place);
    protect(image_arena.start, image_arena.len, PROT_READ | PROT_WRITE);
    memset(image_arena.start, FILL, image_arena.len);
    memcpy(at, image->bytes, image->len);
    if (place < 2)
        protect(image_arena.start, image_arena.len, PROT_READ);
    return at;
}

int image_is_right(const uint8_t *at, const struct image *image)
{
    if (memcmp(at, image->bytes, image->len) != 0) {
        printf("wrong: %s: expected the image as it was, got other bytes\n", current);
        return 0;
    }
    if (!all_filled(image_arena.start, (size_t)(at - image_arena.start))
        || !all_filled(at + image->len, (size_t)(image_arena.end - at) - image->len)) {
        printf("wrong: %s: expected the bytes beside the image as they were, got others\n", current);
        return 0;
    }
    return 1;
}

uint8_t *map_huge(void)
{
    uint8_t *huge = (uint8_t *)mmap(NULL, (size_t)HUGE_LEN, PROT_READ, MAP_PRIVATE | MAP_ANONYMOUS | MAP_NORESERVE, -1, 0);
    if ((void *)huge == MAP_FAILED)
        give_up("2^32 bytes");
    return huge;
}

void lay_nops(uint8_t *huge, struct image *image, uint32_t count)
{
    size_t page = page_size();
    put_header(image, 0, 1, count);
    put_function(image, 1, 0, count);
    protect(huge, page, PROT_READ | PROT_WRITE);
    memcpy(huge, image->bytes, image->len);
    protect(huge, page, PROT_READ);
}

void unmap_huge(uint8_t *huge)
{
    munmap(huge, (size_t)HUGE_LEN);
}

/* ---- Answers ---- */

static void print_answer(const char *label, uint64_t number, const uint64_t *answer)
{
    int i;
    printf("%s %llu:", label, (unsigned long long)number);
    for (i = 0; i < KNIT_ANSWER_WORDS; i++)
        printf(" %llu", (unsigned long long)answer[i]);
}

void fill_answer(struct lent_answer *lent)
{
    memset(lent, FILL, sizeof *lent);
}

int answer_is_right(const struct lent_answer *lent, uint64_t number, const struct expected *expected)
{
    if (number != expected->number || memcmp(lent->words, expected->answer, sizeof lent->words) != 0) {
        printf("wrong: %s: ", current);
        print_answer("expected", expected->number, expected->answer);
        print_answer(", got", number, lent->words);
        printf("\n");
        return 0;
    }
    if (!all_filled((const uint8_t *)lent->before, sizeof lent->before)
        || !all_filled((const uint8_t *)lent->after, sizeof lent->after)) {
        printf("wrong: %s: expected the words beside the answer as they were, got others\n", current);
        return 0;
    }
    return 1;
}

/* ---- Image faults, in an image of two functions with two instructions each: 24 + 32 + 48 bytes ---- */

struct patch {
    size_t at;
    int width;
    uint32_t value;
};

static const struct fault_case {
    const char *name;
    struct patch patches[3];
    struct expected expected;
} fault_cases[] = {
    {"form 0", {{0, 2, 0}}, {KNIT_FORM, {0}}},
    {"form 2", {{0, 2, 2}}, {KNIT_FORM, {0}}},
    {"form 257, 1 in its low byte", {{0, 2, 257}}, {KNIT_FORM, {0}}},
    {"form before layout", {{0, 2, 2}, {12, 4, 25}}, {KNIT_FORM, {0}}},
    {"function table one byte early", {{12, 4, 23}}, {KNIT_LAYOUT, {0}}},
    {"function table one byte late", {{12, 4, 25}}, {KNIT_LAYOUT, {0}}},
    {"instruction table one byte early", {{16, 4, 55}}, {KNIT_LAYOUT, {0}}},
    {"instruction table one byte late", {{16, 4, 57}}, {KNIT_LAYOUT, {0}}},
    {"total one byte less", {{20, 4, 103}}, {KNIT_LAYOUT, {0}}},
    {"total one byte more", {{20, 4, 105}}, {KNIT_LAYOUT, {0}}},
    {"one function less in the header", {{4, 4, 1}}, {KNIT_LAYOUT, {0}}},
    {"one instruction less in the header", {{8, 4, 3}}, {KNIT_LAYOUT, {0}}},
    {"a third function that is not there", {{4, 4, 3}, {16, 4, 72}, {20, 4, 120}}, {KNIT_LAYOUT, {0}}},
    {"a fifth instruction that is not there", {{8, 4, 5}, {20, 4, 116}}, {KNIT_LAYOUT, {0}}},
    {"2^28 functions more, which 32 bits lose", {{4, 4, 268435458u}}, {KNIT_LAYOUT, {0}}},
    {"2^30 instructions more, which 32 bits lose", {{8, 4, 1073741828u}}, {KNIT_LAYOUT, {0}}},
    {"layout before functions", {{20, 4, 105}, {30, 2, 1}}, {KNIT_LAYOUT, {0}}},
    {"function 0, zero field", {{30, 2, 1}}, {KNIT_FUNCTION_TABLE, {0}}},
    {"function 1, zero field's high byte", {{46, 2, 256}}, {KNIT_FUNCTION_TABLE, {1}}},
    {"function 0 starts late", {{32, 4, 1}}, {KNIT_FUNCTION_TABLE, {0}}},
    {"function 1 starts early", {{48, 4, 1}}, {KNIT_FUNCTION_TABLE, {1}}},
    {"function 0 too long for the join", {{36, 4, 3}}, {KNIT_FUNCTION_TABLE, {1}}},
    {"the sum is too low", {{52, 4, 1}}, {KNIT_FUNCTION_TABLE, {2}}},
    {"the sum is too high", {{52, 4, 3}}, {KNIT_FUNCTION_TABLE, {2}}},
    {"the sum is 2^32 too high", {{36, 4, UINT32_MAX}, {48, 4, UINT32_MAX}, {52, 4, 5}}, {KNIT_FUNCTION_TABLE, {2}}},
    {"functions before instructions", {{56, 1, 56}, {46, 2, 1}}, {KNIT_FUNCTION_TABLE, {1}}},
    {"opcode 56", {{56, 1, 56}}, {KNIT_INSTRUCTION, {0}}},
    {"opcode 255 in the last instruction", {{92, 1, 255}}, {KNIT_INSTRUCTION, {3}}},
    {"a Nop with small", {{57, 1, 1}}, {KNIT_INSTRUCTION, {0}}},
    {"a Nop with a", {{82, 2, 1}}, {KNIT_INSTRUCTION, {2}}},
    {"a Ret with b", {{72, 2, 1}}, {KNIT_INSTRUCTION, {1}}},
    {"a Ret with c", {{74, 2, 256}}, {KNIT_INSTRUCTION, {1}}},
    {"the image's last byte, in the w of a Ret", {{103, 1, 1}}, {KNIT_INSTRUCTION, {3}}},
    {"a LoadQuad of 4", {{80, 2, 0x0404}}, {KNIT_INSTRUCTION, {2}}},
    {"a LoadBool of 2", {{80, 2, 0x0205}}, {KNIT_INSTRUCTION, {2}}},
    {"a Call with 65,536 arguments", {{80, 1, 54}, {88, 4, 65536}}, {KNIT_INSTRUCTION, {2}}},
    {"the first instruction at fault", {{92, 1, 99}, {68, 1, 99}}, {KNIT_INSTRUCTION, {1}}},
};

static void put_two_functions(struct image *image)
{
    put_alike(image, 0, 2, 1, 2);
}

static void each_fault_of_table(struct image *image, check_image *check)
{
    size_t i, p;
    for (i = 0; i < COUNT(fault_cases); i++) {
        put_two_functions(image);
        for (p = 0; p < COUNT(fault_cases[i].patches); p++)
            set_number(image, fault_cases[i].patches[p].at, fault_cases[i].patches[p].width, fault_cases[i].patches[p].value);
        check(fault_cases[i].name, image, &fault_cases[i].expected);
    }
}

/* Every length that is too short, 0 among them, and some that are too long. */
static void each_wrong_length(struct image *image, check_image *check)
{
    static const struct expected is_short = {KNIT_SHORT, {0}}, is_layout = {KNIT_LAYOUT, {0}};
    static const size_t more[] = {1, 12, 16, 4096};
    static char name[64];
    size_t full, i;
    put_two_functions(image);
    full = image->len;
    memset(image->bytes + full, 0, 4096);
    for (i = 0; i < full; i++) {
        sprintf(name, "the first %lu of 104 bytes", (unsigned long)i);
        image->len = i;
        check(name, image, i < 24 ? &is_short : &is_layout);
    }
    for (i = 0; i < COUNT(more); i++) {
        sprintf(name, "%lu bytes after the image's end", (unsigned long)more[i]);
        image->len = full + more[i];
        check(name, image, &is_layout);
    }
}

void each_image_fault(struct image *image, check_image *check)
{
    each_fault_of_table(image, check);
    each_wrong_length(image, check);
}

/* ---- Cases ---- */

/* Only calls that a signal handler may make. */
static void crashed(int signal_number)
{
    static const char told[] = ": the call touched memory that it was not lent, or wrote to the image\n";
    const char *name = current;
    (void)signal_number;
    if (write(1, "wrong: ", 7) < 0 || write(1, name, strlen(name)) < 0 || write(1, told, sizeof told - 1) < 0)
        _exit(2);
    _exit(1);
}

void start_tests(void)
{
    setvbuf(stdout, NULL, _IOLBF, 0); /* so that lines before a crash are seen */
    signal(SIGSEGV, crashed);
    signal(SIGBUS, crashed);
    make_arena(&image_arena, IMAGE_ROOM + 2);
}

void start_case(const char *name)
{
    current = name;
    cases++;
}

const char *case_name(void)
{
    return current;
}

void end_case(int right)
{
    if (!right)
        wrong++;
}

int end_tests(const char *function)
{
    printf("boundary (%s): %s: %lu cases, %lu wrong\n", LANGUAGE, function, cases, wrong);
    return wrong == 0 ? 0 : 1;
}
