#include "verdict.h"

#include <string.h>

struct answer answer_of(uint64_t number, uint64_t first, uint64_t second, uint64_t third)
{
    struct answer answer;
    memset(&answer, 0, sizeof answer);
    answer.number = number;
    answer.words[0] = first;
    answer.words[1] = second;
    answer.words[2] = third;
    return answer;
}

static struct answer no_fault(void)
{
    return answer_of(KNIT_ADMITTED, 0, 0, 0);
}

static struct answer limits_fault(const struct limits *limits)
{
    static const uint64_t highest[] = {16384, 4096, 1024, 1000000, 1000000000};
    uint64_t fields[5], i;
    fields[0] = limits->registers;
    fields[1] = limits->functions;
    fields[2] = limits->call_depth;
    fields[3] = limits->instrs;
    fields[4] = limits->fuel;
    for (i = 0; i < 5; i++)
        if (fields[i] == 0)
            return answer_of(KNIT_PROFILE, 0, i + 1, 0);
    for (i = 0; i < 5; i++)
        if (fields[i] > highest[i])
            return answer_of(KNIT_PROFILE, 1, i + 1, 0);
    return no_fault();
}

static struct answer program_fault(const struct image *image, const struct limits *limits)
{
    uint32_t functions = functions_of(image);
    if (functions == 0)
        return answer_of(KNIT_EMPTY_PROGRAM, 0, 0, 0);
    if (functions > limits->functions)
        return answer_of(KNIT_TOO_MANY_FUNCTIONS, functions, limits->functions, 0);
    if (entry_of(image) >= functions)
        return answer_of(KNIT_INVALID_ENTRY, entry_of(image), 0, 0);
    return no_fault();
}

static struct answer call_fault(const struct image *image, uint32_t number, const struct instr *instr)
{
    if (instr->b >= functions_of(image))
        return answer_of(KNIT_INVALID_CALL, number, instr->b, 0);
    if (instr->c + instr->w > function_at(image, number).regs || instr->w > function_at(image, instr->b).regs)
        return answer_of(KNIT_INVALID_ARG_WINDOW, number, instr->c, instr->w);
    return no_fault();
}

static struct answer instr_fault(const struct image *image, uint32_t number, const struct function *function,
    const struct instr *instr)
{
    unsigned registers = registers_of(instr->op);
    if (registers & USES_A && instr->a >= function->regs)
        return answer_of(KNIT_INVALID_REGISTER, number, instr->a, 0);
    if (registers & USES_B && instr->b >= function->regs)
        return answer_of(KNIT_INVALID_REGISTER, number, instr->b, 0);
    if (registers & USES_C && instr->c >= function->regs)
        return answer_of(KNIT_INVALID_REGISTER, number, instr->c, 0);
    if (instr->op >= OP_JUMP && instr->op <= OP_JUMP_IF_FALSE && instr->w >= function->count)
        return answer_of(KNIT_INVALID_JUMP, number, instr->w, 0);
    return instr->op == OP_CALL ? call_fault(image, number, instr) : no_fault();
}

static struct answer function_fault(const struct image *image, uint32_t number, const struct limits *limits)
{
    struct function function = function_at(image, number);
    int returns = 0;
    uint32_t i;
    if (function.regs > limits->registers)
        return answer_of(KNIT_TOO_MANY_REGISTERS, number, function.regs, limits->registers);
    if (function.count > limits->instrs)
        return answer_of(KNIT_TOO_MANY_INSTRUCTIONS, number, function.count, limits->instrs);
    for (i = 0; i < function.count; i++) {
        struct instr instr = instr_at(image, function.first + i);
        struct answer found = instr_fault(image, number, &function, &instr);
        if (found.number != KNIT_ADMITTED)
            return found;
        returns |= instr.op == OP_RET;
    }
    return returns ? no_fault() : answer_of(KNIT_MISSING_RETURN, number, 0, 0);
}

struct answer verdict_on(const struct image *image, const struct limits *limits)
{
    struct fault fault = image_fault(image);
    struct answer found;
    uint32_t i;
    if (fault.number != 0)
        return answer_of(fault.number, fault.value, 0, 0);
    found = limits_fault(limits);
    if (found.number == KNIT_ADMITTED)
        found = program_fault(image, limits);
    for (i = 0; found.number == KNIT_ADMITTED && i < functions_of(image); i++)
        found = function_fault(image, i, limits);
    return found;
}
