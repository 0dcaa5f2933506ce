/*
 * Images as document 01's section "Image" has them: where each number stands, which fields an opcode uses, and the first fault of
 * any bytes. Read from that section alone, so that the engine's answers can be held to it.
 */
#ifndef FUZZ_IMAGE_H
#define FUZZ_IMAGE_H

#include <stddef.h>
#include <stdint.h>

#define HEADER_BYTES 24
#define FUNCTION_BYTES 16
#define INSTR_BYTES 12
#define OPCODES 56
#define IMAGE_ROOM (128 * 1024) /* holds more functions and more instructions than the safe limits allow */

struct image {
    size_t len;
    uint8_t bytes[IMAGE_ROOM];
};

struct function {
    uint16_t regs;
    uint32_t first, count;
};

struct instr {
    uint8_t op, small;
    uint16_t a, b, c;
    uint32_t w;
};

enum opcode {
    OP_NOP, OP_TRAP, OP_ASSERT, OP_LOAD_UNIT, OP_LOAD_QUAD, OP_LOAD_BOOL, OP_LOAD_I32, OP_LOAD_U32, OP_LOAD_FX, OP_Q_NOT,
    OP_Q_EQ = 13, OP_Q_IS_KNOWN = 15, OP_BOOL_NOT = 18, OP_BOOL_AND = 19, OP_I32_ADD = 23, OP_I32_DIV = 26, OP_I32_EQ = 27,
    OP_U32_ADD = 32, OP_U32_DIV = 35, OP_U32_EQ = 36, OP_FX_ADD = 41, OP_FX_DIV = 44, OP_FX_EQ = 45, OP_MOVE = 50, OP_JUMP,
    OP_JUMP_IF_TRUE, OP_JUMP_IF_FALSE, OP_CALL, OP_RET
};

enum { USES_SMALL = 1, USES_A = 2, USES_B = 4, USES_C = 8, USES_W = 16 };

/* The fields that an opcode under OPCODES uses, and those of them that name registers. A Call's c is none of these: it may stand
 * right past the registers. */
unsigned fields_of(uint8_t op);
unsigned registers_of(uint8_t op);

uint64_t number_at(const struct image *image, size_t at, int width);
void set_number(struct image *image, size_t at, int width, uint64_t value);

uint32_t entry_of(const struct image *image);
uint32_t functions_of(const struct image *image);
uint32_t instrs_of(const struct image *image);
size_t place_of_function(uint32_t number);
size_t place_of_instr(const struct image *image, uint32_t number);

/* Of an image without a fault: a function that is there, and an instruction that is. */
struct function function_at(const struct image *image, uint32_t number);
struct instr instr_at(const struct image *image, uint32_t number);

/* The header goes first, since the others' places depend on it; it sets the image's length. */
void put_header(struct image *image, uint16_t entry, uint32_t functions, uint32_t instrs);
void put_function(struct image *image, uint32_t number, const struct function *function);
void put_instr(struct image *image, uint32_t number, const struct instr *instr);

/* The refusal's number and its answer; number 0 if the bytes are an image. */
struct fault {
    uint64_t number, value;
};

struct fault image_fault(const struct image *image);

/* Whether there are as many functions and instructions as the header says, in whatever state they are. */
int has_layout(const struct image *image);

#endif
