#include "check.h"

#include "watch.h"

/* A record, and where it stands in the program. */
struct stand {
    size_t index;
    uint64_t place, first;
    struct function function;
    int inside; /* the place is one of the function's */
    struct instr instr;
};

struct stack {
    const struct image *image;
    const struct terms *terms;
    const struct run *run;
    const struct words *words;
    int admitted;
};

static const uint64_t *record_of(const struct stack *stack, size_t index)
{
    return stack->words->frames + KNIT_FRAME_WORDS * index;
}

static struct stand stand_of(const struct stack *stack, size_t index)
{
    const uint64_t *record = record_of(stack, index);
    struct stand stand;
    stand.index = index;
    stand.place = record[KNIT_FRAME_PLACE];
    stand.first = record[KNIT_FRAME_FIRST_REGISTER];
    stand.function = function_at(stack->image, (uint32_t)record[KNIT_FRAME_FUNCTION]);
    stand.inside = stand.place < stand.function.count;
    stand.instr.op = OP_NOP;
    if (stand.inside)
        stand.instr = instr_at(stack->image, stand.function.first + (uint32_t)stand.place);
    return stand;
}

/* Every number fits what it numbers. The records of functions that returned stay, so this holds of all. */
static void check_record(const struct stack *stack, size_t index)
{
    const uint64_t *record = record_of(stack, index);
    uint64_t function = record[KNIT_FRAME_FUNCTION], first = record[KNIT_FRAME_FIRST_REGISTER];
    if (function >= functions_of(stack->image) || record[KNIT_FRAME_PLACE] > UINT32_MAX
        || record[KNIT_FRAME_RETURN_REGISTER] > UINT16_MAX || first > stack->run->registers
        || function_at(stack->image, (uint32_t)function).regs > stack->run->registers - first)
        wrong("record %lu: function %llu, place %llu, dst %llu, first register %llu", (unsigned long)index,
            (unsigned long long)function, (unsigned long long)record[KNIT_FRAME_PLACE],
            (unsigned long long)record[KNIT_FRAME_RETURN_REGISTER], (unsigned long long)first);
}

static void check_entry(const struct stack *stack)
{
    const uint64_t *record = record_of(stack, 0);
    if (record[KNIT_FRAME_FUNCTION] != entry_of(stack->image) || record[KNIT_FRAME_RETURN_REGISTER] != 0
        || record[KNIT_FRAME_FIRST_REGISTER] != 0)
        wrong("record 0 is not the entry's");
}

/* Whether the record after this one is that of a function which this one has called and which has not returned. */
static int has_called(const struct stack *stack, size_t index)
{
    const uint64_t *next = record_of(stack, index + 1);
    struct stand stand = stand_of(stack, index);
    struct instr call;
    if (stand.place == 0 || stand.place > stand.function.count)
        return 0;
    call = instr_at(stack->image, stand.function.first + (uint32_t)stand.place - 1);
    return call.op == OP_CALL && call.b == next[KNIT_FRAME_FUNCTION] && call.a == next[KNIT_FRAME_RETURN_REGISTER]
        && stand.first + stand.function.regs == next[KNIT_FRAME_FIRST_REGISTER];
}

/* ---- Where a run can end, by its answer ---- */

static uint64_t word_of(const struct stack *stack, const struct stand *stand, uint16_t number)
{
    return number < stand->function.regs ? stack->words->registers[stand->first + number] : UINT64_MAX;
}

static int may_call(const struct stack *stack, const struct stand *stand)
{
    return stand->instr.op == OP_CALL && stand->index + 1 < stack->terms->depth && stand->instr.b < functions_of(stack->image);
}

static int lacks_frame_room(const struct stack *stack, const struct stand *stand)
{
    return may_call(stack, stand) && stand->index + 1 == stack->terms->frames_len / KNIT_FRAME_WORDS;
}

static int lacks_register_room(const struct stack *stack, const struct stand *stand)
{
    uint64_t next = stand->first + stand->function.regs;
    return may_call(stack, stand) && stand->index + 1 < stack->terms->frames_len / KNIT_FRAME_WORDS
        && next + function_at(stack->image, stand->instr.b).regs > stack->terms->registers_len;
}

static int returns(const struct stack *stack, const struct stand *stand)
{
    const uint64_t *answer = stack->run->answer.words;
    return stand->index == 0 && stand->instr.op == OP_RET
        && word_of(stack, stand, stand->instr.a) == (answer[1] << 32 | answer[2]);
}

static int takes_kinds(uint8_t op)
{
    return op == OP_ASSERT || (op >= OP_Q_NOT && op < OP_MOVE) || op == OP_JUMP_IF_TRUE || op == OP_JUMP_IF_FALSE;
}

static int computes(uint8_t op)
{
    return (op >= OP_I32_ADD && op <= OP_I32_DIV) || (op >= OP_U32_ADD && op < OP_U32_DIV) || (op >= OP_FX_ADD && op <= OP_FX_DIV);
}

static int divides_by_zero(const struct stack *stack, const struct stand *stand)
{
    uint8_t op = stand->instr.op;
    uint64_t kind = op == OP_I32_DIV ? KNIT_KIND_I32 : op == OP_U32_DIV ? KNIT_KIND_U32 : KNIT_KIND_FX;
    return (op == OP_I32_DIV || op == OP_U32_DIV || op == OP_FX_DIV) && word_of(stack, stand, stand->instr.c) == kind << 32;
}

static int traps(const struct stack *stack, const struct stand *stand, uint64_t status)
{
    switch (status) {
    case KNIT_STATUS_INVALID_REGISTER:
        return registers_of(stand->instr.op) != 0;
    case KNIT_STATUS_TYPE_MISMATCH:
        return takes_kinds(stand->instr.op);
    case KNIT_STATUS_DIVISION_BY_ZERO:
        return divides_by_zero(stack, stand);
    case KNIT_STATUS_INTEGER_OVERFLOW:
        return computes(stand->instr.op);
    case KNIT_STATUS_CALL_DEPTH_EXCEEDED:
        return stand->instr.op == OP_CALL && stand->index + 1 >= stack->terms->depth;
    case KNIT_STATUS_INVALID_FUNCTION:
        return stand->instr.op == OP_CALL && stand->instr.b >= functions_of(stack->image);
    case KNIT_STATUS_ASSERT_FAILED:
        return stand->instr.op == OP_ASSERT && word_of(stack, stand, stand->instr.a) == (uint64_t)KNIT_KIND_BOOL << 32;
    default:
        return stand->instr.op == OP_TRAP;
    }
}

static int ends_at(const struct stack *stack, const struct stand *stand)
{
    const struct answer *answer = &stack->run->answer;
    if (answer->number == KNIT_DONE && answer->words[0] == KNIT_STATUS_INVALID_PC)
        return stack->admitted ? stand->place == stand->function.count : !stand->inside;
    if (!stand->inside)
        return 0;
    if (answer->number == KNIT_FRAME_ROOM)
        return lacks_frame_room(stack, stand);
    if (answer->number == KNIT_REGISTER_ROOM)
        return lacks_register_room(stack, stand);
    if (answer->words[0] == KNIT_STATUS_RETURNED)
        return returns(stack, stand);
    return answer->words[0] == KNIT_STATUS_FUEL_EXCEEDED || traps(stack, stand, answer->words[0]);
}

/* ---- The whole stack ---- */

/* Records after the running one are those of functions that returned, and so stand at a Ret. */
static size_t first_returned(const struct stack *stack)
{
    size_t index = stack->run->records;
    while (index > 0 && stand_of(stack, index - 1).instr.op == OP_RET)
        index--;
    return index;
}

void check_stack(const struct input *input, const struct run *run, const struct words *words, int admitted)
{
    struct stack stack;
    size_t returned, i;
    stack.image = &input->image;
    stack.terms = &input->terms;
    stack.run = run;
    stack.words = words;
    stack.admitted = admitted;
    for (i = 0; i < run->records; i++)
        check_record(&stack, i);
    check_entry(&stack);
    returned = first_returned(&stack);
    for (i = 0; i < run->records; i++) {
        struct stand stand = stand_of(&stack, i);
        if (i + 1 >= returned && ends_at(&stack, &stand))
            return;
        if (i + 1 < run->records && !has_called(&stack, i))
            break;
    }
    wrong("no record stands where a run can end with number %llu, %llu", (unsigned long long)run->answer.number,
        (unsigned long long)run->answer.words[0]);
}
