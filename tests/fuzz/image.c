#include "image.h"

#include "knitcauldron.h"

#define FORM 1

static const uint8_t fields[OPCODES] = {
    [OP_ASSERT] = USES_A, [OP_LOAD_UNIT] = USES_A, [OP_LOAD_QUAD] = USES_SMALL | USES_A, [OP_LOAD_BOOL] = USES_SMALL | USES_A,
    [OP_LOAD_I32] = USES_A | USES_W, [OP_LOAD_U32] = USES_A | USES_W, [OP_LOAD_FX] = USES_A | USES_W, [OP_JUMP] = USES_W,
    [OP_JUMP_IF_TRUE] = USES_A | USES_W, [OP_JUMP_IF_FALSE] = USES_A | USES_W,
    [OP_CALL] = USES_A | USES_B | USES_C | USES_W, [OP_RET] = USES_A};

unsigned fields_of(uint8_t op)
{
    if (op == OP_Q_NOT || (op >= OP_Q_IS_KNOWN && op <= OP_BOOL_NOT) || op == OP_MOVE)
        return USES_A | USES_B;
    if (op > OP_Q_NOT && op < OP_MOVE)
        return USES_A | USES_B | USES_C;
    return fields[op];
}

unsigned registers_of(uint8_t op)
{
    return op == OP_CALL ? USES_A : fields_of(op) & (USES_A | USES_B | USES_C);
}

uint64_t number_at(const struct image *image, size_t at, int width)
{
    uint64_t value = 0;
    while (width-- > 0)
        value = value << 8 | image->bytes[at + (size_t)width];
    return value;
}

void set_number(struct image *image, size_t at, int width, uint64_t value)
{
    int i;
    for (i = 0; i < width; i++)
        image->bytes[at + (size_t)i] = (uint8_t)(value >> (8 * i));
}

uint32_t entry_of(const struct image *image)
{
    return (uint32_t)number_at(image, 2, 2);
}

uint32_t functions_of(const struct image *image)
{
    return (uint32_t)number_at(image, 4, 4);
}

uint32_t instrs_of(const struct image *image)
{
    return (uint32_t)number_at(image, 8, 4);
}

size_t place_of_function(uint32_t number)
{
    return HEADER_BYTES + FUNCTION_BYTES * (size_t)number;
}

size_t place_of_instr(const struct image *image, uint32_t number)
{
    return place_of_function(functions_of(image)) + INSTR_BYTES * (size_t)number;
}

struct function function_at(const struct image *image, uint32_t number)
{
    size_t at = place_of_function(number);
    struct function function;
    function.regs = (uint16_t)number_at(image, at + 4, 2);
    function.first = (uint32_t)number_at(image, at + 8, 4);
    function.count = (uint32_t)number_at(image, at + 12, 4);
    return function;
}

struct instr instr_at(const struct image *image, uint32_t number)
{
    size_t at = place_of_instr(image, number);
    struct instr instr;
    instr.op = image->bytes[at];
    instr.small = image->bytes[at + 1];
    instr.a = (uint16_t)number_at(image, at + 2, 2);
    instr.b = (uint16_t)number_at(image, at + 4, 2);
    instr.c = (uint16_t)number_at(image, at + 6, 2);
    instr.w = (uint32_t)number_at(image, at + 8, 4);
    return instr;
}

void put_header(struct image *image, uint16_t entry, uint32_t functions, uint32_t instrs)
{
    uint64_t table = place_of_function(functions), total = table + INSTR_BYTES * (uint64_t)instrs;
    set_number(image, 0, 2, FORM);
    set_number(image, 2, 2, entry);
    set_number(image, 4, 4, functions);
    set_number(image, 8, 4, instrs);
    set_number(image, 12, 4, HEADER_BYTES);
    set_number(image, 16, 4, table);
    set_number(image, 20, 4, total);
    image->len = (size_t)total;
}

void put_function(struct image *image, uint32_t number, const struct function *function)
{
    size_t at = place_of_function(number);
    set_number(image, at, 4, number * 7); /* a name, which nothing depends on */
    set_number(image, at + 4, 2, function->regs);
    set_number(image, at + 6, 2, 0);
    set_number(image, at + 8, 4, function->first);
    set_number(image, at + 12, 4, function->count);
}

void put_instr(struct image *image, uint32_t number, const struct instr *instr)
{
    size_t at = place_of_instr(image, number);
    image->bytes[at] = instr->op;
    image->bytes[at + 1] = instr->small;
    set_number(image, at + 2, 2, instr->a);
    set_number(image, at + 4, 2, instr->b);
    set_number(image, at + 6, 2, instr->c);
    set_number(image, at + 8, 4, instr->w);
}

/* ---- The first fault ---- */

static struct fault fault(uint64_t number, uint64_t value)
{
    struct fault found;
    found.number = number;
    found.value = value;
    return found;
}

static int layout_is_right(const struct image *image)
{
    uint64_t table = HEADER_BYTES + FUNCTION_BYTES * (uint64_t)functions_of(image);
    uint64_t total = table + INSTR_BYTES * (uint64_t)instrs_of(image);
    return number_at(image, 12, 4) == HEADER_BYTES && number_at(image, 16, 4) == table && number_at(image, 20, 4) == total
        && image->len == total;
}

static struct fault function_fault(const struct image *image)
{
    uint64_t joined = 0;
    uint32_t i;
    for (i = 0; i < functions_of(image); i++) {
        struct function function = function_at(image, i);
        if (number_at(image, place_of_function(i) + 6, 2) != 0 || function.first != joined)
            return fault(KNIT_FUNCTION_TABLE, i);
        joined += function.count;
    }
    return joined == instrs_of(image) ? fault(0, 0) : fault(KNIT_FUNCTION_TABLE, i);
}

static int fields_are_right(const struct instr *instr)
{
    unsigned used = instr->op < OPCODES ? fields_of(instr->op) : 0;
    unsigned set = (instr->small ? USES_SMALL : 0) | (instr->a ? USES_A : 0) | (instr->b ? USES_B : 0) | (instr->c ? USES_C : 0)
        | (instr->w ? USES_W : 0);
    if (instr->op >= OPCODES || (set & ~used) != 0)
        return 0;
    if (instr->op == OP_LOAD_QUAD || instr->op == OP_LOAD_BOOL)
        return instr->small <= (instr->op == OP_LOAD_QUAD ? 3 : 1);
    return instr->op != OP_CALL || instr->w <= UINT16_MAX;
}

static struct fault instr_fault(const struct image *image)
{
    uint32_t i;
    for (i = 0; i < instrs_of(image); i++) {
        struct instr instr = instr_at(image, i);
        if (!fields_are_right(&instr))
            return fault(KNIT_INSTRUCTION, i);
    }
    return fault(0, 0);
}

struct fault image_fault(const struct image *image)
{
    struct fault found;
    if (image->len < HEADER_BYTES)
        return fault(KNIT_SHORT, 0);
    if (number_at(image, 0, 2) != FORM)
        return fault(KNIT_FORM, 0);
    if (!layout_is_right(image))
        return fault(KNIT_LAYOUT, 0);
    found = function_fault(image);
    return found.number != 0 ? found : instr_fault(image);
}

int has_layout(const struct image *image)
{
    return image->len >= HEADER_BYTES && layout_is_right(image);
}
