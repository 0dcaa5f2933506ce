#include "generate.h"

#include "knitcauldron.h"
#include "random.h"

#include <string.h>

/* ---- Noise ---- */

static void put_noise(struct image *image, size_t from, size_t to)
{
    size_t i;
    for (i = from; i < to; i++)
        image->bytes[i] = one_in(3) ? 0 : (uint8_t)any_word();
}

void make_noise(struct image *image)
{
    image->len = (size_t)below(one_in(8) ? 4000 : 120);
    put_noise(image, 0, image->len);
    if (image->len >= 2 && one_in(2))
        set_number(image, 0, 2, 1);
}

void make_headed_noise(struct image *image)
{
    uint32_t functions = (uint32_t)below(6), instrs = (uint32_t)below(30);
    put_header(image, (uint16_t)any_number(), functions, instrs);
    put_noise(image, HEADER_BYTES, image->len);
}

/* ---- Operands ---- */

/*
 * By a convention of this generator register r of every function holds a value of kind 1 + r mod 5, and function f returns one of
 * kind 1 + f mod 5. Programs that keep to it run into few type faults, also across calls, and so reach what comes after. It is kept
 * most of the time, not always.
 */
#define KINDS 5

static unsigned kind_by(uint32_t number)
{
    return (unsigned)(1 + number % KINDS);
}

static uint16_t edge_register(const struct surroundings *at)
{
    switch (below(4)) {
    case 0:
        return at->regs;
    case 1:
        return (uint16_t)(at->regs - 1);
    case 2:
        return (uint16_t)any_number();
    default:
        return (uint16_t)below((uint64_t)at->regs + 2);
    }
}

static uint16_t register_of_kind(const struct surroundings *at, unsigned kind)
{
    uint16_t lowest = (uint16_t)(kind - 1);
    if (one_in(at->loose ? 8 : 400))
        return edge_register(at);
    if (at->loose || lowest >= at->regs || one_in(100))
        return (uint16_t)below(at->regs);
    return (uint16_t)(lowest + KINDS * below((at->regs - lowest + KINDS - 1) / KINDS));
}

static uint16_t any_register(const struct surroundings *at)
{
    return register_of_kind(at, (unsigned)between(1, KINDS));
}

static unsigned operand_kind(uint8_t op)
{
    if (op < OP_BOOL_NOT)
        return KNIT_KIND_QUAD;
    if (op < OP_I32_ADD)
        return KNIT_KIND_BOOL;
    if (op < OP_U32_ADD)
        return KNIT_KIND_I32;
    return op < OP_FX_ADD ? KNIT_KIND_U32 : KNIT_KIND_FX;
}

static unsigned result_kind(uint8_t op)
{
    int compares = (op >= OP_Q_EQ && op <= OP_BOOL_NOT) || (op >= OP_I32_EQ && op < OP_U32_ADD)
        || (op >= OP_U32_EQ && op < OP_FX_ADD) || op >= OP_FX_EQ;
    return compares ? KNIT_KIND_BOOL : operand_kind(op);
}

static uint32_t any_constant(void)
{
    static const uint32_t edges[] = {0, 1, 2, 3, 7, 100, 0xffffffffu, 0xfffffffeu, 0x7fffffff, 0x80000000u, 0x80000001u, 0x8000,
        0xffff, 0x10000, 0x20000, 0xffff0000u};
    return one_in(3) ? (uint32_t)any_number() : PICK(edges);
}

static uint32_t any_target(const struct surroundings *at)
{
    static const uint32_t edges[] = {0, 0x7fff, 0x8000, 0xffff, 0x10000, 0x7fffffff, 0x80000000u, 0xffffffffu};
    if (one_in(60))
        return one_in(2) ? at->count : PICK(edges);
    if (one_in(4))
        return (uint32_t)below(at->count);
    return at->place + 1 < at->count ? (uint32_t)between(at->place + 1, at->count - 1) : at->count - 1;
}

/* ---- Instructions ---- */

static void set_load(struct instr *instr, const struct surroundings *at)
{
    static const unsigned kinds[] = {KNIT_KIND_QUAD, KNIT_KIND_BOOL, KNIT_KIND_I32, KNIT_KIND_U32, KNIT_KIND_FX};
    instr->a = instr->op == OP_LOAD_UNIT ? any_register(at) : register_of_kind(at, kinds[instr->op - OP_LOAD_QUAD]);
    if (instr->op == OP_LOAD_QUAD)
        instr->small = (uint8_t)below(4);
    else if (instr->op == OP_LOAD_BOOL)
        instr->small = (uint8_t)below(2);
    else if (instr->op != OP_LOAD_UNIT)
        instr->w = any_constant();
}

static void set_operation(struct instr *instr, const struct surroundings *at)
{
    instr->a = register_of_kind(at, result_kind(instr->op));
    instr->b = register_of_kind(at, operand_kind(instr->op));
    if (fields_of(instr->op) & USES_C)
        instr->c = register_of_kind(at, operand_kind(instr->op));
}

static void set_move(struct instr *instr, const struct surroundings *at)
{
    unsigned kind = (unsigned)between(1, KINDS);
    instr->a = register_of_kind(at, kind);
    instr->b = register_of_kind(at, kind);
}

static void set_call(struct instr *instr, const struct surroundings *at)
{
    instr->b = one_in(60) ? (uint16_t)(at->functions + below(2)) : (uint16_t)below(at->functions);
    instr->a = register_of_kind(at, kind_by(instr->b));
    instr->c = (uint16_t)(KINDS * below(at->regs / KINDS + 1));
    instr->w = (uint32_t)below((uint64_t)at->regs - instr->c + 1);
    if (one_in(at->loose ? 4 : 100))
        instr->c = edge_register(at);
    if (one_in(at->loose ? 4 : 100))
        instr->w = edge_register(at);
}

static void set_operands(struct instr *instr, const struct surroundings *at)
{
    if (instr->op >= OP_LOAD_UNIT && instr->op <= OP_LOAD_FX)
        set_load(instr, at);
    else if (instr->op >= OP_Q_NOT && instr->op < OP_MOVE)
        set_operation(instr, at);
    else if (instr->op == OP_MOVE)
        set_move(instr, at);
    else if (instr->op == OP_CALL)
        set_call(instr, at);
    else if (fields_of(instr->op) & USES_A)
        instr->a = register_of_kind(at, instr->op == OP_RET ? kind_by(at->number) : KNIT_KIND_BOOL);
    if (instr->op >= OP_JUMP && instr->op <= OP_JUMP_IF_FALSE)
        instr->w = any_target(at);
}

static uint8_t any_opcode(void)
{
    static const uint8_t ends[] = {OP_NOP, OP_ASSERT, OP_RET, OP_RET, OP_TRAP};
    switch (below(24)) {
    case 0:
        return one_in(2) ? OP_CALL : (uint8_t)below(OPCODES);
    case 1:
    case 2:
        return OP_CALL;
    case 3:
    case 4:
        return (uint8_t)between(OP_JUMP, OP_JUMP_IF_FALSE);
    case 5:
        return PICK(ends);
    case 6:
    case 7:
    case 8:
        return (uint8_t)between(OP_LOAD_QUAD, OP_LOAD_FX);
    default:
        return (uint8_t)between(OP_Q_NOT, OP_MOVE);
    }
}

static struct instr instr_of(uint8_t op, const struct surroundings *at)
{
    struct instr instr;
    memset(&instr, 0, sizeof instr);
    instr.op = op;
    set_operands(&instr, at);
    return instr;
}

struct instr any_instr(const struct surroundings *at)
{
    return instr_of(at->loose ? (uint8_t)below(OPCODES) : any_opcode(), at);
}

/* ---- Programs ---- */

#define MOST_FUNCTIONS 300
#define MOST_INSTRS ((IMAGE_ROOM - HEADER_BYTES - FUNCTION_BYTES * MOST_FUNCTIONS) / INSTR_BYTES)
#define LOADED 10 /* so many registers have a value of their kind before a function goes on */

uint16_t any_regs(void)
{
    static const uint16_t edges[] = {0, 0, 1, 2, 3, 255, 256, 257, 4096, 16384, 16385, 32767, 32768, 65535};
    if (one_in(24))
        return PICK(edges);
    return (uint16_t)(one_in(4) ? between(1, KINDS - 1) : between(KINDS, 12));
}

uint16_t any_entry(uint32_t functions)
{
    return one_in(80) ? (uint16_t)(functions + below(3)) : (uint16_t)below(functions);
}

static uint32_t any_function_count(void)
{
    if (one_in(300))
        return (uint32_t)between(200, MOST_FUNCTIONS);
    return one_in(100) ? 0 : (uint32_t)between(1, 5);
}

/* Seldom more instructions than the safe limits allow, for the answers that only these get. */
static uint32_t any_length(uint32_t functions)
{
    if (functions > 5)
        return (uint32_t)below(3);
    if (one_in(2000))
        return (uint32_t)between(8190, 8194);
    return (uint32_t)below(one_in(20) ? 120 : 24);
}

/* Functions begin with loads and mostly end in a Ret; a Ret before the end lets an admitted program run past it. */
static struct instr instr_in(const struct surroundings *at)
{
    static const uint8_t loads[KINDS] = {OP_LOAD_QUAD, OP_LOAD_BOOL, OP_LOAD_I32, OP_LOAD_U32, OP_LOAD_FX};
    uint32_t to_come = at->count - at->place;
    struct instr instr;
    if (!at->loose && at->place < at->regs && at->place < LOADED && to_come > 1) {
        instr = instr_of(loads[at->place % KINDS], at);
        instr.a = (uint16_t)at->place;
        return instr;
    }
    if (to_come == 1 ? !one_in(8) : to_come < 4 && one_in(6))
        return instr_of(OP_RET, at);
    return any_instr(at);
}

static void put_code(struct image *image, uint32_t number, const struct function *function, int loose)
{
    struct surroundings at;
    at.functions = functions_of(image);
    at.number = number;
    at.regs = function->regs;
    at.count = function->count;
    at.loose = loose;
    for (at.place = 0; at.place < at.count; at.place++) {
        struct instr instr = instr_in(&at);
        put_instr(image, function->first + at.place, &instr);
    }
}

void make_program(struct image *image)
{
    struct function functions[MOST_FUNCTIONS];
    uint32_t count = any_function_count(), instrs = 0, i;
    int loose = one_in(6);
    for (i = 0; i < count; i++) {
        uint32_t room = MOST_INSTRS - instrs, length;
        functions[i].regs = any_regs();
        functions[i].first = instrs;
        length = any_length(count) + (loose || functions[i].regs > LOADED ? 0 : functions[i].regs);
        functions[i].count = length < room ? length : room;
        instrs += functions[i].count;
    }
    put_header(image, any_entry(count), count, instrs);
    for (i = 0; i < count; i++) {
        put_function(image, i, &functions[i]);
        put_code(image, i, &functions[i], loose);
    }
}
