/*
 * What the boundary's tests in C and C++ share: images made by hand, memory between pages that may not be touched, answers and the
 * look at them after a call.
 *
 * Each case is called with the image at three places: up to the end of the readable pages, from their start, and at an odd address
 * in writable memory that is compared afterwards. At the first two places the image's pages are read-only, so that reading past it
 * or writing to it ends the program, which then names the case.
 */
#ifndef BOUNDARY_H
#define BOUNDARY_H

#include "knitcauldron.h"

#define COUNT(table) (sizeof(table) / sizeof((table)[0]))

/* ---- Images ---- */

#define IMAGE_ROOM (24 + 16 * 65537 + 12) /* the longest image made here has 65,537 functions */

struct image {
    size_t len;
    uint8_t bytes[IMAGE_ROOM];
};

struct instr {
    uint8_t op, small;
    uint16_t a, b, c;
    uint32_t w;
};

#define NOP {0, 0, 0, 0, 0, 0}
#define TRAP {1, 0, 0, 0, 0, 0}
#define ASSERT(cond) {2, 0, cond, 0, 0, 0}
#define LOAD_UNIT(dst) {3, 0, dst, 0, 0, 0}
#define LOAD_QUAD(dst, value) {4, value, dst, 0, 0, 0}
#define LOAD_BOOL(dst, value) {5, value, dst, 0, 0, 0}
#define LOAD_I32(dst, value) {6, 0, dst, 0, 0, (uint32_t)(value)}
#define LOAD_U32(dst, value) {7, 0, dst, 0, 0, value}
#define LOAD_FX(dst, raw) {8, 0, dst, 0, 0, (uint32_t)(raw)}
#define BOOL_AND(dst, lhs, rhs) {19, 0, dst, lhs, rhs, 0}
#define BOOL_OR(dst, lhs, rhs) {20, 0, dst, lhs, rhs, 0}
#define I32_ADD(dst, lhs, rhs) {23, 0, dst, lhs, rhs, 0}
#define I32_DIV(dst, lhs, rhs) {26, 0, dst, lhs, rhs, 0}
#define I32_LT(dst, lhs, rhs) {28, 0, dst, lhs, rhs, 0}
#define U32_SUB(dst, lhs, rhs) {33, 0, dst, lhs, rhs, 0}
#define FX_MUL(dst, lhs, rhs) {43, 0, dst, lhs, rhs, 0}
#define FX_DIV(dst, lhs, rhs) {44, 0, dst, lhs, rhs, 0}
#define MOVE(dst, src) {50, 0, dst, src, 0, 0}
#define JUMP(target) {51, 0, 0, 0, 0, target}
#define JUMP_IF_TRUE(cond, target) {52, 0, cond, 0, 0, target}
#define JUMP_IF_FALSE(cond, target) {53, 0, cond, 0, 0, target}
#define CALL(dst, function, base, count) {54, 0, dst, function, base, count}
#define RET(src) {55, 0, src, 0, 0, 0}

void set_number(struct image *image, size_t at, int width, uint32_t value);
void put_header(struct image *image, uint16_t entry, uint32_t functions, uint32_t instrs);
void put_function(struct image *image, uint16_t regs, uint32_t first, uint32_t count);
void put_instr(struct image *image, const struct instr *instr);
void put_ret_0(struct image *image);

/* Functions that are all alike: Nop as often as needed, and Ret of register 0 as the last of `each` instructions. */
void put_alike(struct image *image, uint16_t entry, uint32_t functions, uint16_t regs, uint32_t each);

/* Document 01's image: one function, 1 register, 2 instructions. */
void put_document_01(struct image *image);

/* ---- Memory ---- */

#define FILL 0xA5

struct arena {
    uint8_t *start, *end; /* pages that may be used, with one page that may not be touched on either side */
    size_t len;
};

void give_up(const char *why);
void make_arena(struct arena *arena, size_t len);
int all_filled(const uint8_t *bytes, size_t len);

#define PLACES 3

/* Puts the image at one of its places and says where. The image must stay as it is until image_is_right was asked. */
const uint8_t *lay_image(const struct image *image, int place);
int image_is_right(const uint8_t *at, const struct image *image);

/* As long as the longest slice here. A Nop is twelve zeros, so the first page alone is written, and the others stay shared: there
 * lay_nops puts what comes before the `count` Nops of one function with 1 register. */
#define HUGE_LEN 4294967360u
uint8_t *map_huge(void);
void lay_nops(uint8_t *huge, struct image *image, uint32_t count);
void unmap_huge(uint8_t *huge);

/* ---- Answers ---- */

struct expected {
    uint64_t number;
    uint64_t answer[KNIT_ANSWER_WORDS]; /* the words that a row leaves out are 0, as the call must write them */
};

#define BESIDE 4

struct lent_answer {
    uint64_t before[BESIDE], words[KNIT_ANSWER_WORDS], after[BESIDE];
};

void fill_answer(struct lent_answer *lent);

/* Returns 1 if the number, the answer and the words beside the answer are right; otherwise it says what is wrong. */
int answer_is_right(const struct lent_answer *lent, uint64_t number, const struct expected *expected);

/* ---- Cases ---- */

typedef void check_image(const char *name, const struct image *image, const struct expected *expected);

/* Calls `check` with every image fault of a table, and with every length that an image can't have. */
void each_image_fault(struct image *image, check_image *check);

void start_tests(void);
void start_case(const char *name);
const char *case_name(void);
void end_case(int right);

/* Prints the count of cases and returns the program's exit status. */
int end_tests(const char *function);

#endif
