#include "mutate.h"

#include "generate.h"
#include "random.h"

#include <string.h>

static uint64_t edge_value(void)
{
    static const uint64_t edges[] = {0, 1, 0x7fff, 0x8000, 0xffff, 0xffffffffu};
    return PICK(edges);
}

/* ---- Changes of bytes, in any order and of any bytes ---- */

static void flip_bit(struct image *image)
{
    size_t at = (size_t)below(image->len);
    if (image->len > 0)
        image->bytes[at] ^= (uint8_t)(1u << below(8));
}

static void set_edge(struct image *image)
{
    static const int widths[] = {1, 2, 4};
    int width = PICK(widths);
    size_t fields = image->len / (size_t)width, field = (size_t)below(fields);
    if (fields > 0)
        set_number(image, (size_t)width * field, width, edge_value());
}

/* The tables are longer than the header, so few changes would come to it otherwise. */
static void set_header_field(struct image *image)
{
    static const struct { size_t at; int width; } fields[] = {{0, 2}, {2, 2}, {4, 4}, {8, 4}, {12, 4}, {16, 4}, {20, 4}};
    size_t i = (size_t)below(COUNT(fields));
    uint64_t value;
    if (image->len < HEADER_BYTES)
        return;
    value = number_at(image, fields[i].at, fields[i].width);
    set_number(image, fields[i].at, fields[i].width, one_in(2) ? edge_value() : value + below(3) - 1);
}

static void cut_short(struct image *image)
{
    image->len = one_in(2) ? (size_t)below(image->len + 1) : image->len - (size_t)below(image->len < 3 ? 1 : 3);
}

static void append(struct image *image)
{
    size_t more = (size_t)below(20);
    if (image->len + more > IMAGE_ROOM)
        return;
    memset(image->bytes + image->len, one_in(2) ? 0 : (int)below(256), more);
    image->len += more;
}

static void repeat_bytes(struct image *image)
{
    size_t from = (size_t)below(image->len), to = (size_t)below(image->len), len = (size_t)below(32);
    size_t last = from > to ? from : to;
    if (last + len <= image->len)
        memmove(image->bytes + to, image->bytes + from, len);
}

static void (*const of_bytes[])(struct image *image) = {flip_bit, set_edge, set_header_field, cut_short, append, repeat_bytes};

/* ---- Changes of records; the layout is right, so that they are there ---- */

static uint32_t any_place(const struct image *image)
{
    return (uint32_t)below(instrs_of(image));
}

static void exchange(struct image *image, size_t one, size_t other, size_t len)
{
    uint8_t kept[FUNCTION_BYTES];
    memcpy(kept, image->bytes + one, len);
    memmove(image->bytes + one, image->bytes + other, len);
    memcpy(image->bytes + other, kept, len);
}

static void exchange_instrs(struct image *image)
{
    uint32_t one = any_place(image), other = any_place(image);
    exchange(image, place_of_instr(image, one), place_of_instr(image, other), INSTR_BYTES);
}

static void repeat_instr(struct image *image)
{
    uint32_t from = any_place(image), to = any_place(image);
    memmove(image->bytes + place_of_instr(image, to), image->bytes + place_of_instr(image, from), INSTR_BYTES);
}

static void exchange_functions(struct image *image)
{
    uint32_t one = (uint32_t)below(functions_of(image)), other = (uint32_t)below(functions_of(image));
    exchange(image, place_of_function(one), place_of_function(other), one_in(2) ? 8 : FUNCTION_BYTES); /* 8: without the join */
}

/* Mostly a field that the opcode uses: any other value than 0 is a fault in one that it doesn't. */
static uint64_t any_field(uint8_t op)
{
    uint64_t field = below(6);
    while (op < OPCODES && field > 0 && !(fields_of(op) >> (field - 1) & 1) && !one_in(12))
        field = below(6);
    return field;
}

static void set_instr_field(struct image *image)
{
    uint32_t number = any_place(image);
    uint64_t value = one_in(2) ? edge_value() : below(12);
    struct instr instr = instr_at(image, number);
    switch (any_field(instr.op)) {
    case 0:
        instr.op = (uint8_t)below(OPCODES + 1);
        break;
    case 1:
        instr.small = (uint8_t)value;
        break;
    case 2:
        instr.a = (uint16_t)value;
        break;
    case 3:
        instr.b = (uint16_t)value;
        break;
    case 4:
        instr.c = (uint16_t)value;
        break;
    default:
        instr.w = (uint32_t)value;
        break;
    }
    put_instr(image, number, &instr);
}

/* Finds the function that an instruction is in; false if a broken table gives it to none. */
static int surround(const struct image *image, uint32_t number, struct surroundings *at)
{
    at->functions = functions_of(image);
    at->loose = one_in(6);
    for (at->number = 0; at->number < at->functions; at->number++) {
        struct function function = function_at(image, at->number);
        if (number >= function.first && number - function.first < function.count) {
            at->regs = function.regs;
            at->place = number - function.first;
            at->count = function.count;
            return 1;
        }
    }
    return 0;
}

static void replace_instr(struct image *image)
{
    uint32_t number = any_place(image);
    struct surroundings at;
    if (surround(image, number, &at)) {
        struct instr instr = any_instr(&at);
        put_instr(image, number, &instr);
    }
}

/* Makes room for an instruction (1) or takes one away (-1), and mends all that counts them. */
static void shift_instrs(struct image *image, uint32_t number, uint32_t owner, int by)
{
    size_t at = place_of_instr(image, number), moved = by < 0 ? at + INSTR_BYTES : at;
    uint32_t functions = functions_of(image), i;
    memmove(image->bytes + at + (by < 0 ? 0 : INSTR_BYTES), image->bytes + moved, image->len - moved);
    put_header(image, (uint16_t)entry_of(image), functions, instrs_of(image) + (uint32_t)by);
    set_number(image, place_of_function(owner) + 12, 4, function_at(image, owner).count + (uint32_t)by);
    for (i = owner + 1; i < functions; i++)
        set_number(image, place_of_function(i) + 8, 4, function_at(image, i).first + (uint32_t)by);
}

static void insert_instr(struct image *image)
{
    uint32_t number = any_place(image);
    struct surroundings at;
    struct instr instr;
    if (image->len + INSTR_BYTES > IMAGE_ROOM || !surround(image, number, &at))
        return;
    instr = any_instr(&at);
    shift_instrs(image, number, at.number, 1);
    put_instr(image, number, &instr);
}

static void remove_instr(struct image *image)
{
    uint32_t number = any_place(image);
    struct surroundings at;
    if (surround(image, number, &at))
        shift_instrs(image, number, at.number, -1);
}

static void set_regs(struct image *image)
{
    uint32_t number = (uint32_t)below(functions_of(image));
    uint64_t regs = function_at(image, number).regs;
    set_number(image, place_of_function(number) + 4, 2, one_in(2) ? any_regs() : regs + below(3) - 1);
}

static void set_entry(struct image *image)
{
    set_number(image, 2, 2, any_entry(functions_of(image)));
}

/* Moves the join of two functions. */
static void move_join(struct image *image)
{
    uint32_t number = (uint32_t)below(functions_of(image)), count, more;
    if (number + 1 >= functions_of(image))
        return;
    more = function_at(image, number + 1).count;
    count = (uint32_t)below((uint64_t)function_at(image, number).count + more + 1);
    more += function_at(image, number).count - count;
    set_number(image, place_of_function(number) + 12, 4, count);
    set_number(image, place_of_function(number + 1) + 8, 4, function_at(image, number).first + count);
    set_number(image, place_of_function(number + 1) + 12, 4, more);
}

static void (*const of_records[])(struct image *image) = {exchange_instrs, repeat_instr, exchange_functions, set_instr_field,
    set_instr_field, replace_instr, replace_instr, replace_instr, insert_instr, remove_instr, set_regs, set_entry, move_join};

/* ---- All of them ---- */

static int has_records(const struct image *image)
{
    return has_layout(image) && functions_of(image) > 0 && instrs_of(image) > 0;
}

static void borrow_instrs(struct image *image, const struct image *other)
{
    uint32_t to = any_place(image), from = any_place(other), count = (uint32_t)below(12);
    if (count > instrs_of(image) - to)
        count = instrs_of(image) - to;
    if (count > instrs_of(other) - from)
        count = instrs_of(other) - from;
    memcpy(image->bytes + place_of_instr(image, to), other->bytes + place_of_instr(other, from), INSTR_BYTES * (size_t)count);
}

static void mutate_once(struct image *image, const struct image *other)
{
    if (!has_records(image) || one_in(10))
        PICK(of_bytes)(image);
    else if (has_records(other) && one_in(10))
        borrow_instrs(image, other);
    else
        PICK(of_records)(image);
}

void mutate(struct image *image, const struct image *other)
{
    do
        mutate_once(image, other);
    while (one_in(2));
}
