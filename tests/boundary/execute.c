/*
 * knit_execute and knit_digest as a caller in C or C++ sees them. What a run does is proved elsewhere; here it is checked that
 * arguments, answers and lent memory pass the boundary whole, with answers and memory written out by hand from document 01.
 *
 * The lent words are placed as the image is: up to a page that may not be touched, from the end of such a page on, and in the
 * middle. At each place they are filled with another word beforehand, and afterwards every word of their pages is compared.
 */
#include "boundary.h"

#include <stdio.h>
#include <string.h>

/* ---- Register words ---- */

#define WORD(kind, payload) ((uint64_t)(kind) << 32 | (uint32_t)(payload))
#define UNIT WORD(KNIT_KIND_UNIT, 0)
#define QUAD(bits) WORD(KNIT_KIND_QUAD, bits)
#define BOOL(truth) WORD(KNIT_KIND_BOOL, truth)
#define I32(number) WORD(KNIT_KIND_I32, number)
#define U32(number) WORD(KNIT_KIND_U32, number)
#define FX(raw) WORD(KNIT_KIND_FX, raw)

/* ---- Lent memory ---- */

#define MIDDLE 64                        /* words before the lent ones at their third place */
#define ROOM_WORDS (16384 + 2 * MIDDLE)

static struct arena frames_arena, registers_arena;

/* The second is the word of a value, true: words that a run must not take for its own. */
static const uint64_t fills[PLACES] = {0xA5A5A5A5A5A5A5A5u, BOOL(1), UINT64_MAX};

static uint64_t *place_of_words(const struct arena *arena, size_t len, int place)
{
    uint64_t *start = (uint64_t *)(void *)arena->start;
    if (place == 0)
        return start + arena->len / sizeof *start - len;
    return place == 1 ? start : start + MIDDLE;
}

static uint64_t *lay_words(const struct arena *arena, size_t len, int place)
{
    uint64_t *word = (uint64_t *)(void *)arena->start, *end = (uint64_t *)(void *)arena->end;
    while (word < end)
        *word++ = fills[place];
    return place_of_words(arena, len, place);
}

/* The first words of what was lent, as the run must leave them. All others must be as they were. */
struct written {
    size_t len;
    const uint64_t *words;
};

static const struct written nothing = {0, NULL};

/* Looks at every word of the arena; `at` is where the lent ones began. */
static int words_are_right(const char *what, const struct arena *arena, const uint64_t *at, int place,
    const struct written *written)
{
    const uint64_t *word = (const uint64_t *)(void *)arena->start, *end = (const uint64_t *)(void *)arena->end;
    for (; word < end; word++) {
        int inside = word >= at && word < at + written->len;
        uint64_t expected = inside ? written->words[word - at] : fills[place];
        if (*word != expected) {
            printf("wrong: %s: word %ld of the %s: expected %llx, got %llx\n", case_name(), (long)(word - at), what,
                (unsigned long long)expected, (unsigned long long)*word);
            return 0;
        }
    }
    return 1;
}

/* ---- Digests ---- */

static uint64_t mixed(uint64_t digest, uint64_t word)
{
    return (digest ^ word) * (((uint64_t)1 << 44) + 435);
}

static uint64_t digest_of(uint64_t status, uint64_t kind, uint64_t payload, uint64_t fuel_used)
{
    return mixed(mixed(mixed(mixed(mixed(0xcbf29ce484222325u, status), kind), payload), 0), fuel_used);
}

/* The answer with its digest, which a row leaves out. */
static struct expected with_digest(const struct expected *row)
{
    struct expected whole = *row;
    if (row->number == KNIT_DONE)
        whole.answer[4] = digest_of(row->answer[0], row->answer[1], row->answer[2], row->answer[3]);
    return whole;
}

/* ---- The call ---- */

struct terms {
    uint64_t fuel;
    uint16_t max_call_depth;
    size_t frames_len, registers_len;
};

struct outcome {
    struct expected expected;
    struct written frames, registers;
};

static int call_is_right(const uint8_t *image, size_t len, int place, const struct terms *terms, const struct outcome *outcome)
{
    uint64_t *frames = lay_words(&frames_arena, terms->frames_len, place);
    uint64_t *registers = lay_words(&registers_arena, terms->registers_len, place);
    struct expected expected = with_digest(&outcome->expected);
    struct lent_answer lent;
    uint64_t number;
    fill_answer(&lent);
    number = knit_execute(image, len, terms->fuel, terms->max_call_depth, frames, terms->frames_len, registers,
        terms->registers_len, lent.words);
    return answer_is_right(&lent, number, &expected)
        && words_are_right("frames", &frames_arena, frames, place, &outcome->frames)
        && words_are_right("registers", &registers_arena, registers, place, &outcome->registers);
}

static int place_is_right(int place, const struct image *image, const struct terms *terms, const struct outcome *outcome)
{
    const uint8_t *at = lay_image(image, place);
    return call_is_right(at, image->len, place, terms, outcome) && image_is_right(at, image);
}

static void check(const char *name, const struct image *image, const struct terms *terms, const struct outcome *outcome)
{
    int place = 0;
    start_case(name);
    while (place < PLACES && place_is_right(place, image, terms, outcome))
        place++;
    end_case(place == PLACES);
}

/* ---- Programs and what comes of them ---- */

#define FUNCTION_OP 254
#define END_OP 255
#define FUNCTION(regs) {FUNCTION_OP, 0, regs, 0, 0, 0} /* the instructions after it are the function's */
#define END {END_OP, 0, 0, 0, 0, 0}

#define RETURNED(kind, payload, fuel) {KNIT_DONE, {KNIT_STATUS_RETURNED, kind, (uint32_t)(payload), fuel}}
#define TRAPPED(status, fuel) {KNIT_DONE, {status, KNIT_KIND_UNIT, 0, fuel}}
#define REFUSED(number, fuel) {number, {fuel}}

#define ROOMY(fuel) {fuel, 64, 256, 256}
#define UNTOUCHED 0, {{0}}, 0, {0}

static const struct row {
    const char *name;
    uint16_t entry;
    struct instr code[14];
    struct terms terms;
    struct expected expected;
    size_t records;
    uint64_t record[3][KNIT_FRAME_WORDS];
    size_t registers;
    uint64_t word[8];
} rows[] = {
/* How a run ends, and its fuel. */
{"the least room, fuel and depth", 0, {FUNCTION(1), LOAD_I32(0, -1), RET(0), END},
    {2, 1, 4, 1}, RETURNED(KNIT_KIND_I32, -1, 2), 1, {{0, 1, 0, 0}}, 1, {I32(-1)}},
{"depth 0, and no Call", 0, {FUNCTION(1), LOAD_I32(0, -1), RET(0), END},
    {2, 0, 4, 1}, RETURNED(KNIT_KIND_I32, -1, 2), 1, {{0, 1, 0, 0}}, 1, {I32(-1)}},
{"one unit of fuel short", 0, {FUNCTION(1), LOAD_I32(0, -1), RET(0), END},
    ROOMY(1), TRAPPED(KNIT_STATUS_FUEL_EXCEEDED, 1), 1, {{0, 1, 0, 0}}, 1, {I32(-1)}},
{"P: fuel 0, place inside", 0, {FUNCTION(1), LOAD_I32(0, -1), RET(0), END},
    ROOMY(0), TRAPPED(KNIT_STATUS_FUEL_EXCEEDED, 0), 1, {{0, 0, 0, 0}}, 1, {UNIT}},
{"P: fuel 0, place at the length", 0, {FUNCTION(2), END},
    ROOMY(0), TRAPPED(KNIT_STATUS_INVALID_PC, 0), 1, {{0, 0, 0, 0}}, 2, {UNIT, UNIT}},
{"off the end with no fuel left", 0, {FUNCTION(1), NOP, END},
    ROOMY(1), TRAPPED(KNIT_STATUS_INVALID_PC, 1), 1, {{0, 1, 0, 0}}, 1, {UNIT}},
{"fuel 2^32, zero in its low half", 0, {FUNCTION(1), NOP, RET(0), END},
    ROOMY(4294967296u), RETURNED(KNIT_KIND_UNIT, 0, 2), 1, {{0, 1, 0, 0}}, 1, {UNIT}},
{"fuel 2^64 - 1", 0, {FUNCTION(1), NOP, RET(0), END},
    ROOMY(UINT64_MAX), RETURNED(KNIT_KIND_UNIT, 0, 2), 1, {{0, 1, 0, 0}}, 1, {UNIT}},
{"the whole limit in a loop", 0, {FUNCTION(0), NOP, JUMP(0), END},
    ROOMY(100001), TRAPPED(KNIT_STATUS_FUEL_EXCEEDED, 100001), 1, {{0, 1, 0, 0}}, 0, {0}},
{"an explicit trap", 0, {FUNCTION(1), NOP, TRAP, END},
    ROOMY(9), TRAPPED(KNIT_STATUS_EXPLICIT_TRAP, 2), 1, {{0, 1, 0, 0}}, 1, {UNIT}},
{"the result's kind: Quad", 0, {FUNCTION(1), LOAD_QUAD(0, 3), RET(0), END},
    ROOMY(9), RETURNED(KNIT_KIND_QUAD, 3, 2), 1, {{0, 1, 0, 0}}, 1, {QUAD(3)}},
{"the result's kind: Bool", 0, {FUNCTION(1), LOAD_BOOL(0, 1), RET(0), END},
    ROOMY(9), RETURNED(KNIT_KIND_BOOL, 1, 2), 1, {{0, 1, 0, 0}}, 1, {BOOL(1)}},
{"the result's kind: U32", 0, {FUNCTION(1), LOAD_U32(0, UINT32_MAX), RET(0), END},
    ROOMY(9), RETURNED(KNIT_KIND_U32, UINT32_MAX, 2), 1, {{0, 1, 0, 0}}, 1, {U32(UINT32_MAX)}},
{"the result's kind: Fx", 0, {FUNCTION(1), LOAD_FX(0, INT32_MIN), RET(0), END},
    ROOMY(9), RETURNED(KNIT_KIND_FX, INT32_MIN, 2), 1, {{0, 1, 0, 0}}, 1, {FX(INT32_MIN)}},
{"the last function as the entry", 1, {FUNCTION(2), TRAP, FUNCTION(1), LOAD_U32(0, 4), RET(0), END},
    ROOMY(9), RETURNED(KNIT_KIND_U32, 4, 2), 1, {{1, 1, 0, 0}}, 1, {U32(4)}},
/* The entry's frame. */
{"an entry that doesn't exist", 1, {FUNCTION(1), RET(0), END},
    ROOMY(9), TRAPPED(KNIT_STATUS_INVALID_FUNCTION, 0), UNTOUCHED},
{"an entry that doesn't exist, no room, no fuel", 65535, {FUNCTION(1), RET(0), END},
    {0, 0, 0, 0}, TRAPPED(KNIT_STATUS_INVALID_FUNCTION, 0), UNTOUCHED},
{"no function", 0, {END}, ROOMY(9), TRAPPED(KNIT_STATUS_INVALID_FUNCTION, 0), UNTOUCHED},
{"no function, no room", 0, {END}, {9, 64, 0, 0}, TRAPPED(KNIT_STATUS_INVALID_FUNCTION, 0), UNTOUCHED},
{"no word for a record", 0, {FUNCTION(1), RET(0), END}, {9, 64, 0, 256}, REFUSED(KNIT_FRAME_ROOM, 0), UNTOUCHED},
{"1 word for a record", 0, {FUNCTION(1), RET(0), END}, {9, 64, 1, 256}, REFUSED(KNIT_FRAME_ROOM, 0), UNTOUCHED},
{"2 words for a record", 0, {FUNCTION(1), RET(0), END}, {9, 64, 2, 256}, REFUSED(KNIT_FRAME_ROOM, 0), UNTOUCHED},
{"3 words for a record", 0, {FUNCTION(1), RET(0), END}, {9, 64, 3, 256}, REFUSED(KNIT_FRAME_ROOM, 0), UNTOUCHED},
{"no record before too few registers", 0, {FUNCTION(1), RET(0), END}, {9, 64, 3, 0}, REFUSED(KNIT_FRAME_ROOM, 0), UNTOUCHED},
{"no record, no fuel", 0, {FUNCTION(1), RET(0), END}, {0, 64, 3, 256}, REFUSED(KNIT_FRAME_ROOM, 0), UNTOUCHED},
{"no register of 3", 0, {FUNCTION(3), RET(0), END}, {9, 64, 256, 0}, REFUSED(KNIT_REGISTER_ROOM, 0), UNTOUCHED},
{"2 registers of 3", 0, {FUNCTION(3), RET(0), END}, {9, 64, 256, 2}, REFUSED(KNIT_REGISTER_ROOM, 0), UNTOUCHED},
{"too few registers, no fuel", 0, {FUNCTION(3), RET(0), END}, {0, 64, 256, 2}, REFUSED(KNIT_REGISTER_ROOM, 0), UNTOUCHED},
{"too few registers, place at the length", 0, {FUNCTION(3), END}, {9, 64, 256, 2}, REFUSED(KNIT_REGISTER_ROOM, 0), UNTOUCHED},
{"65,535 registers in 16,384 words", 0, {FUNCTION(65535), RET(0), END},
    {9, 64, 256, 16384}, REFUSED(KNIT_REGISTER_ROOM, 0), UNTOUCHED},
{"3 registers of 3", 0, {FUNCTION(3), RET(2), END},
    {9, 64, 4, 3}, RETURNED(KNIT_KIND_UNIT, 0, 1), 1, {{0, 0, 0, 0}}, 3, {UNIT, UNIT, UNIT}},
{"no registers, none lent", 0, {FUNCTION(0), TRAP, END},
    {9, 64, 4, 0}, TRAPPED(KNIT_STATUS_EXPLICIT_TRAP, 1), 1, {{0, 0, 0, 0}}, 0, {0}},
{"5 words, one record", 0, {FUNCTION(1), CALL(0, 0, 0, 0), END},
    {9, 64, 5, 256}, REFUSED(KNIT_FRAME_ROOM, 1), 1, {{0, 0, 0, 0}}, 1, {UNIT}},
{"6 words, one record", 0, {FUNCTION(1), CALL(0, 0, 0, 0), END},
    {9, 64, 6, 256}, REFUSED(KNIT_FRAME_ROOM, 1), 1, {{0, 0, 0, 0}}, 1, {UNIT}},
{"7 words, one record", 0, {FUNCTION(1), CALL(0, 0, 0, 0), END},
    {9, 64, 7, 256}, REFUSED(KNIT_FRAME_ROOM, 1), 1, {{0, 0, 0, 0}}, 1, {UNIT}},
/* Calls. */
{"P: depth 0, a Call to function 9 of 1", 0, {FUNCTION(1), CALL(0, 9, 0, 0), END},
    {5, 0, 256, 256}, TRAPPED(KNIT_STATUS_CALL_DEPTH_EXCEEDED, 1), 1, {{0, 0, 0, 0}}, 1, {UNIT}},
{"depth 1 is the entry alone", 0, {FUNCTION(1), CALL(0, 0, 0, 0), END},
    {5, 1, 256, 256}, TRAPPED(KNIT_STATUS_CALL_DEPTH_EXCEEDED, 1), 1, {{0, 0, 0, 0}}, 1, {UNIT}},
{"depth 2 is one Call", 0, {FUNCTION(1), CALL(0, 1, 0, 0), RET(0), FUNCTION(0), NOP, CALL(0, 0, 0, 0), END},
    {5, 2, 256, 256}, TRAPPED(KNIT_STATUS_CALL_DEPTH_EXCEEDED, 3), 2, {{0, 1, 0, 0}, {1, 1, 0, 1}}, 1, {UNIT}},
{"depth before room", 0, {FUNCTION(1), CALL(0, 0, 0, 0), END},
    {5, 1, 4, 1}, TRAPPED(KNIT_STATUS_CALL_DEPTH_EXCEEDED, 1), 1, {{0, 0, 0, 0}}, 1, {UNIT}},
{"depth 256, zero in its low byte", 0, {FUNCTION(1), CALL(0, 0, 0, 0), END},
    {5, 256, 4, 1}, REFUSED(KNIT_FRAME_ROOM, 1), 1, {{0, 0, 0, 0}}, 1, {UNIT}},
{"depth 65,535", 0, {FUNCTION(1), CALL(0, 0, 0, 0), END},
    {5, 65535, 8, 9}, REFUSED(KNIT_FRAME_ROOM, 2), 2, {{0, 1, 0, 0}, {0, 0, 0, 1}}, 2, {UNIT, UNIT}},
{"a Call just past the functions", 0, {FUNCTION(1), CALL(0, 1, 9, 9), END},
    ROOMY(5), TRAPPED(KNIT_STATUS_INVALID_FUNCTION, 1), 1, {{0, 0, 0, 0}}, 1, {UNIT}},
{"the called function before room", 0, {FUNCTION(1), CALL(0, 65535, 0, 0), END},
    {5, 2, 4, 1}, TRAPPED(KNIT_STATUS_INVALID_FUNCTION, 1), 1, {{0, 0, 0, 0}}, 1, {UNIT}},
{"a Call with no record left", 0, {FUNCTION(2), LOAD_I32(0, 5), CALL(1, 0, 0, 1), END},
    {9, 64, 4, 256}, REFUSED(KNIT_FRAME_ROOM, 2), 1, {{0, 1, 0, 0}}, 2, {I32(5), UNIT}},
{"a Call with one register too few", 0, {FUNCTION(2), LOAD_I32(0, 5), CALL(1, 0, 0, 1), END},
    {9, 64, 8, 3}, REFUSED(KNIT_REGISTER_ROOM, 2), 1, {{0, 1, 0, 0}}, 2, {I32(5), UNIT}},
{"a Call with no register left", 0, {FUNCTION(2), LOAD_I32(0, 5), CALL(1, 0, 0, 1), END},
    {9, 64, 256, 2}, REFUSED(KNIT_REGISTER_ROOM, 2), 1, {{0, 1, 0, 0}}, 2, {I32(5), UNIT}},
{"a Call with neither left", 0, {FUNCTION(2), LOAD_I32(0, 5), CALL(1, 0, 0, 1), END},
    {9, 64, 7, 2}, REFUSED(KNIT_FRAME_ROOM, 2), 1, {{0, 1, 0, 0}}, 2, {I32(5), UNIT}},
{"the second Call refused for registers", 0, {FUNCTION(2), LOAD_I32(0, 5), CALL(1, 0, 0, 1), END},
    {9, 64, 256, 5}, REFUSED(KNIT_REGISTER_ROOM, 4), 2, {{0, 2, 0, 0}, {0, 1, 1, 2}}, 4, {I32(5), UNIT, I32(5), UNIT}},
{"a callee without registers needs no words", 0, {FUNCTION(1), CALL(0, 1, 0, 0), FUNCTION(0), END},
    {9, 64, 8, 1}, TRAPPED(KNIT_STATUS_INVALID_PC, 1), 2, {{0, 1, 0, 0}, {1, 0, 0, 1}}, 1, {UNIT}},
{"arguments first, Unit after", 0,
    {FUNCTION(4), LOAD_I32(1, 7), LOAD_BOOL(2, 1), CALL(3, 1, 1, 2), RET(3), FUNCTION(4), RET(0), END},
    {9, 2, 8, 8}, RETURNED(KNIT_KIND_I32, 7, 5), 2, {{0, 3, 0, 0}, {1, 0, 3, 4}},
    8, {UNIT, I32(7), BOOL(1), I32(7), I32(7), BOOL(1), UNIT, UNIT}},
{"as many arguments as both have registers", 0,
    {FUNCTION(2), LOAD_I32(0, 7), LOAD_I32(1, 8), CALL(0, 1, 0, 2), RET(0), FUNCTION(2), RET(1), END},
    {9, 2, 8, 4}, RETURNED(KNIT_KIND_I32, 8, 5), 2, {{0, 3, 0, 0}, {1, 0, 0, 2}}, 4, {I32(8), I32(8), I32(7), I32(8)}},
{"a callee finds Unit where another one wrote", 0,
    {FUNCTION(1), CALL(0, 1, 0, 0), CALL(0, 2, 0, 0), RET(0), FUNCTION(2), LOAD_U32(0, 9), LOAD_U32(1, 8), RET(0),
        FUNCTION(3), RET(1), END},
    {9, 2, 8, 4}, RETURNED(KNIT_KIND_UNIT, 0, 7), 2, {{0, 2, 0, 0}, {2, 0, 0, 1}}, 4, {UNIT, UNIT, UNIT, UNIT}},
{"what a smaller callee doesn't reach stays", 0,
    {FUNCTION(1), CALL(0, 1, 0, 0), CALL(0, 2, 0, 0), RET(0), FUNCTION(2), LOAD_U32(0, 9), LOAD_U32(1, 8), RET(0),
        FUNCTION(1), TRAP, END},
    {9, 2, 8, 4}, TRAPPED(KNIT_STATUS_EXPLICIT_TRAP, 6), 2, {{0, 2, 0, 0}, {2, 0, 0, 1}}, 3, {U32(9), UNIT, U32(8)}},
{"a dropped frame stays", 0, {FUNCTION(2), CALL(1, 1, 0, 0), LOAD_I32(0, 3), RET(1), FUNCTION(1), LOAD_U32(0, 9), RET(0), END},
    ROOMY(9), RETURNED(KNIT_KIND_U32, 9, 5), 2, {{0, 2, 0, 0}, {1, 1, 1, 2}}, 3, {I32(3), U32(9), U32(9)}},
{"three frames and back", 0,
    {FUNCTION(1), CALL(0, 1, 0, 0), RET(0), FUNCTION(2), CALL(1, 2, 0, 0), RET(1), FUNCTION(1), LOAD_I32(0, 6), RET(0), END},
    {9, 3, 12, 4}, RETURNED(KNIT_KIND_I32, 6, 6), 3, {{0, 1, 0, 0}, {1, 1, 0, 1}, {2, 1, 1, 3}},
    4, {I32(6), UNIT, I32(6), I32(6)}},
{"a bad dst counts at Ret", 0, {FUNCTION(1), CALL(65535, 1, 0, 0), RET(0), FUNCTION(1), LOAD_U32(0, 2), RET(0), END},
    ROOMY(9), TRAPPED(KNIT_STATUS_INVALID_REGISTER, 3), 2, {{0, 1, 0, 0}, {1, 1, 65535, 1}}, 2, {UNIT, U32(2)}},
{"a dst that only the callee has", 0, {FUNCTION(1), CALL(1, 1, 0, 0), RET(0), FUNCTION(2), RET(0), END},
    ROOMY(9), TRAPPED(KNIT_STATUS_INVALID_REGISTER, 2), 2, {{0, 1, 0, 0}, {1, 0, 1, 1}}, 3, {UNIT, UNIT, UNIT}},
{"a bad dst does not count before Ret", 0, {FUNCTION(1), CALL(1, 1, 0, 0), RET(0), FUNCTION(0), TRAP, END},
    ROOMY(9), TRAPPED(KNIT_STATUS_EXPLICIT_TRAP, 2), 2, {{0, 1, 0, 0}, {1, 0, 1, 1}}, 1, {UNIT}},
{"a Ret of a register that isn't there", 0, {FUNCTION(1), CALL(0, 1, 0, 0), RET(0), FUNCTION(1), RET(1), END},
    ROOMY(9), TRAPPED(KNIT_STATUS_INVALID_REGISTER, 2), 2, {{0, 1, 0, 0}, {1, 0, 0, 1}}, 2, {UNIT, UNIT}},
{"no arguments from register 65,535", 0, {FUNCTION(1), CALL(0, 1, 65535, 0), RET(0), FUNCTION(1), RET(0), END},
    ROOMY(9), RETURNED(KNIT_KIND_UNIT, 0, 3), 2, {{0, 1, 0, 0}, {1, 0, 0, 1}}, 2, {UNIT, UNIT}},
{"arguments past the caller's registers", 0, {FUNCTION(2), CALL(0, 1, 1, 2), RET(0), FUNCTION(9), RET(0), END},
    ROOMY(9), TRAPPED(KNIT_STATUS_INVALID_REGISTER, 1), 1, {{0, 0, 0, 0}}, 2, {UNIT, UNIT}},
{"arguments past the callee's registers", 0, {FUNCTION(3), CALL(0, 1, 0, 3), RET(0), FUNCTION(2), RET(0), END},
    ROOMY(9), TRAPPED(KNIT_STATUS_INVALID_REGISTER, 1), 1, {{0, 0, 0, 0}}, 3, {UNIT, UNIT, UNIT}},
{"arguments up to 2^16, which 16 bits lose", 0, {FUNCTION(2), CALL(0, 1, 65535, 1), RET(0), FUNCTION(9), RET(0), END},
    ROOMY(9), TRAPPED(KNIT_STATUS_INVALID_REGISTER, 1), 1, {{0, 0, 0, 0}}, 2, {UNIT, UNIT}},
{"arguments before room", 0, {FUNCTION(2), CALL(0, 0, 1, 2), END},
    {9, 64, 4, 2}, TRAPPED(KNIT_STATUS_INVALID_REGISTER, 1), 1, {{0, 0, 0, 0}}, 2, {UNIT, UNIT}},
/* Jumps and Assert. */
{"a jump over a trap", 0, {FUNCTION(1), JUMP(2), TRAP, RET(0), END},
    ROOMY(9), RETURNED(KNIT_KIND_UNIT, 0, 2), 1, {{0, 2, 0, 0}}, 1, {UNIT}},
{"a jump to the length", 0, {FUNCTION(1), NOP, JUMP(2), END},
    ROOMY(9), TRAPPED(KNIT_STATUS_INVALID_PC, 2), 1, {{0, 2, 0, 0}}, 1, {UNIT}},
{"a jump to 2^32 - 1", 0, {FUNCTION(1), JUMP(UINT32_MAX), END},
    ROOMY(9), TRAPPED(KNIT_STATUS_INVALID_PC, 1), 1, {{0, UINT32_MAX, 0, 0}}, 1, {UNIT}},
{"a jump to 2^16, zero in its low half", 0, {FUNCTION(1), JUMP(65536), END},
    ROOMY(9), TRAPPED(KNIT_STATUS_INVALID_PC, 1), 1, {{0, 65536, 0, 0}}, 1, {UNIT}},
{"a jump in a later function counts from its start", 1, {FUNCTION(1), TRAP, TRAP, FUNCTION(1), JUMP(2), TRAP, RET(0), END},
    ROOMY(9), RETURNED(KNIT_KIND_UNIT, 0, 2), 1, {{1, 2, 0, 0}}, 1, {UNIT}},
{"jumps that are taken", 0,
    {FUNCTION(1), LOAD_BOOL(0, 1), JUMP_IF_TRUE(0, 3), TRAP, LOAD_BOOL(0, 0), JUMP_IF_FALSE(0, 6), TRAP, RET(0), END},
    ROOMY(9), RETURNED(KNIT_KIND_BOOL, 0, 5), 1, {{0, 6, 0, 0}}, 1, {BOOL(0)}},
{"jumps that are not taken", 0,
    {FUNCTION(1), LOAD_BOOL(0, 0), JUMP_IF_TRUE(0, 9), LOAD_BOOL(0, 1), JUMP_IF_FALSE(0, 9), RET(0), END},
    ROOMY(9), RETURNED(KNIT_KIND_BOOL, 1, 5), 1, {{0, 4, 0, 0}}, 1, {BOOL(1)}},
{"a loop that counts to 3", 0,
    {FUNCTION(4), LOAD_I32(0, 0), LOAD_I32(1, 1), LOAD_I32(2, 3), I32_ADD(0, 0, 1), I32_LT(3, 0, 2), JUMP_IF_TRUE(3, 3),
        RET(0), END},
    ROOMY(99), RETURNED(KNIT_KIND_I32, 3, 13), 1, {{0, 6, 0, 0}}, 4, {I32(3), I32(1), I32(3), BOOL(0)}},
{"a condition that is no Bool", 0, {FUNCTION(1), JUMP_IF_FALSE(0, 0), END},
    ROOMY(9), TRAPPED(KNIT_STATUS_TYPE_MISMATCH, 1), 1, {{0, 0, 0, 0}}, 1, {UNIT}},
{"a condition that isn't there", 0, {FUNCTION(1), JUMP_IF_TRUE(1, 0), END},
    ROOMY(9), TRAPPED(KNIT_STATUS_INVALID_REGISTER, 1), 1, {{0, 0, 0, 0}}, 1, {UNIT}},
{"an Assert that holds, and one that doesn't", 0, {FUNCTION(2), LOAD_BOOL(0, 1), LOAD_BOOL(1, 0), ASSERT(0), ASSERT(1), END},
    ROOMY(9), TRAPPED(KNIT_STATUS_ASSERT_FAILED, 4), 1, {{0, 3, 0, 0}}, 2, {BOOL(1), BOOL(0)}},
{"an Assert of no Bool", 0, {FUNCTION(1), ASSERT(0), END},
    ROOMY(9), TRAPPED(KNIT_STATUS_TYPE_MISMATCH, 1), 1, {{0, 0, 0, 0}}, 1, {UNIT}},
/* Operands and results. */
{"a dst that isn't there", 0, {FUNCTION(1), LOAD_UNIT(1), END},
    ROOMY(9), TRAPPED(KNIT_STATUS_INVALID_REGISTER, 1), 1, {{0, 0, 0, 0}}, 1, {UNIT}},
{"a dst that only the caller's neighbour has", 0, {FUNCTION(1), CALL(0, 1, 0, 0), FUNCTION(1), LOAD_UNIT(65535), END},
    ROOMY(9), TRAPPED(KNIT_STATUS_INVALID_REGISTER, 2), 2, {{0, 1, 0, 0}, {1, 0, 0, 1}}, 2, {UNIT, UNIT}},
{"a Move of any value", 0, {FUNCTION(2), LOAD_FX(0, 9), MOVE(1, 0), LOAD_UNIT(0), RET(1), END},
    ROOMY(9), RETURNED(KNIT_KIND_FX, 9, 4), 1, {{0, 3, 0, 0}}, 2, {UNIT, FX(9)}},
{"lhs's type before rhs's place", 0, {FUNCTION(1), I32_ADD(9, 0, 9), END},
    ROOMY(9), TRAPPED(KNIT_STATUS_TYPE_MISMATCH, 1), 1, {{0, 0, 0, 0}}, 1, {UNIT}},
{"the operation before dst", 0, {FUNCTION(1), LOAD_I32(0, INT32_MAX), I32_ADD(9, 0, 0), END},
    ROOMY(9), TRAPPED(KNIT_STATUS_INTEGER_OVERFLOW, 2), 1, {{0, 1, 0, 0}}, 1, {I32(INT32_MAX)}},
{"a U32 below 0", 0, {FUNCTION(2), LOAD_U32(0, 1), LOAD_U32(1, 2), U32_SUB(0, 0, 1), END},
    ROOMY(9), TRAPPED(KNIT_STATUS_INTEGER_OVERFLOW, 3), 1, {{0, 2, 0, 0}}, 2, {U32(1), U32(2)}},
{"P: BoolAnd, lhs false, rhs I32", 0, {FUNCTION(3), LOAD_BOOL(0, 0), LOAD_I32(1, 1), BOOL_AND(2, 0, 1), RET(2), END},
    ROOMY(9), RETURNED(KNIT_KIND_BOOL, 0, 4), 1, {{0, 3, 0, 0}}, 3, {BOOL(0), I32(1), BOOL(0)}},
{"BoolOr, lhs true, no rhs", 0, {FUNCTION(2), LOAD_BOOL(0, 1), BOOL_OR(1, 0, 65535), RET(1), END},
    ROOMY(9), RETURNED(KNIT_KIND_BOOL, 1, 3), 1, {{0, 2, 0, 0}}, 2, {BOOL(1), BOOL(1)}},
{"P: i32 minimum / -1", 0, {FUNCTION(3), LOAD_I32(0, INT32_MIN), LOAD_I32(1, -1), I32_DIV(2, 0, 1), END},
    ROOMY(9), TRAPPED(KNIT_STATUS_INTEGER_OVERFLOW, 3), 1, {{0, 2, 0, 0}}, 3, {I32(INT32_MIN), I32(-1), UNIT}},
{"-7 / 2", 0, {FUNCTION(3), LOAD_I32(0, -7), LOAD_I32(1, 2), I32_DIV(2, 0, 1), RET(2), END},
    ROOMY(9), RETURNED(KNIT_KIND_I32, -3, 4), 1, {{0, 3, 0, 0}}, 3, {I32(-7), I32(2), I32(-3)}},
{"P: I32Div, Bool lhs, rhs 0", 0, {FUNCTION(2), LOAD_BOOL(0, 1), LOAD_I32(1, 0), I32_DIV(0, 0, 1), END},
    ROOMY(9), TRAPPED(KNIT_STATUS_DIVISION_BY_ZERO, 3), 1, {{0, 2, 0, 0}}, 2, {BOOL(1), I32(0)}},
{"P: FxDiv, Bool lhs, rhs 0", 0, {FUNCTION(2), LOAD_BOOL(0, 1), LOAD_FX(1, 0), FX_DIV(0, 0, 1), END},
    ROOMY(9), TRAPPED(KNIT_STATUS_TYPE_MISMATCH, 3), 1, {{0, 2, 0, 0}}, 2, {BOOL(1), FX(0)}},
{"P: FxMul raw -1, 1", 0, {FUNCTION(2), LOAD_FX(0, -1), LOAD_FX(1, 1), FX_MUL(0, 0, 1), RET(0), END},
    ROOMY(9), RETURNED(KNIT_KIND_FX, -1, 4), 1, {{0, 3, 0, 0}}, 2, {FX(-1), FX(1)}},
{"P: FxDiv raw -1, 131,072", 0, {FUNCTION(2), LOAD_FX(0, -1), LOAD_FX(1, 131072), FX_DIV(0, 0, 1), RET(0), END},
    ROOMY(9), RETURNED(KNIT_KIND_FX, 0, 4), 1, {{0, 3, 0, 0}}, 2, {FX(0), FX(131072)}},
{"P: FxDiv raw 32,768 by -1", 0, {FUNCTION(2), LOAD_FX(0, 32768), LOAD_FX(1, -1), FX_DIV(0, 0, 1), RET(0), END},
    ROOMY(9), RETURNED(KNIT_KIND_FX, INT32_MIN, 4), 1, {{0, 3, 0, 0}}, 2, {FX(INT32_MIN), FX(-1)}},
{"P: FxDiv raw 32,768 by 1", 0, {FUNCTION(2), LOAD_FX(0, 32768), LOAD_FX(1, 1), FX_DIV(0, 0, 1), RET(0), END},
    ROOMY(9), TRAPPED(KNIT_STATUS_INTEGER_OVERFLOW, 3), 1, {{0, 2, 0, 0}}, 2, {FX(32768), FX(1)}},
};

static uint32_t instrs_from(const struct instr *instr)
{
    uint32_t count = 0;
    while (instr[count].op < FUNCTION_OP)
        count++;
    return count;
}

/* Writes the functions of a listing, which END ends: their records first, then their instructions. */
static void put_program(struct image *image, uint16_t entry, const struct instr *code)
{
    const struct instr *at;
    uint32_t functions = 0, instrs = 0;
    for (at = code; at->op != END_OP; at++)
        at->op == FUNCTION_OP ? functions++ : instrs++;
    put_header(image, entry, functions, instrs);
    for (at = code, instrs = 0; at->op != END_OP; at++)
        if (at->op == FUNCTION_OP) {
            put_function(image, at->a, instrs, instrs_from(at + 1));
            instrs += instrs_from(at + 1);
        }
    for (at = code; at->op != END_OP; at++)
        if (at->op != FUNCTION_OP)
            put_instr(image, at);
}

static void run_rows(struct image *image)
{
    size_t i;
    for (i = 0; i < COUNT(rows); i++) {
        struct outcome outcome;
        outcome.expected = rows[i].expected;
        outcome.frames.len = KNIT_FRAME_WORDS * rows[i].records;
        outcome.frames.words = rows[i].record[0];
        outcome.registers.len = rows[i].registers;
        outcome.registers.words = rows[i].word;
        put_program(image, rows[i].entry, rows[i].code);
        check(rows[i].name, image, &rows[i].terms, &outcome);
    }
}

/* ---- Document 01's image, and bytes that are none ---- */

static void run_document_01(struct image *image)
{
    static const uint64_t record[KNIT_FRAME_WORDS] = {0, 1, 0, 0}, word[] = {I32(-1)};
    static const struct terms runner = {1000000, 64, 256, 2048};
    static const struct outcome outcome = {RETURNED(KNIT_KIND_I32, 4294967295u, 2), {KNIT_FRAME_WORDS, record}, {1, word}};
    put_document_01(image);
    check("document 01's image", image, &runner, &outcome);
}

/* Image faults come before all else, so neither room nor fuel may change the answer. */
static void check_fault(const char *name, const struct image *image, const struct expected *expected)
{
    static const struct terms roomy = ROOMY(1000), none = {0, 0, 0, 0};
    struct outcome outcome;
    outcome.expected = *expected;
    outcome.frames = outcome.registers = nothing;
    check(name, image, &roomy, &outcome);
    check(name, image, &none, &outcome);
}

/* ---- A function that calls itself up to the depth limit: the room that is enough, and a word less of each ---- */

#define DEPTH 4096
#define REGS 3

/* Each frame but the entry's begins with 7 as its argument. Only the last one has not gone past its Call. */
static void expect_frames(uint64_t frames, uint64_t *record, uint64_t *word)
{
    uint64_t i;
    for (i = 0; i < frames; i++) {
        *record++ = 0;
        *record++ = i + 1 < frames ? 2 : 1;
        *record++ = i == 0 ? 0 : 1;
        *record++ = REGS * i;
        *word++ = i == 0 ? UNIT : U32(7);
        *word++ = UNIT;
        *word++ = U32(7);
    }
}

static void check_deep(const char *name, const struct image *image, const struct terms *terms, uint64_t frames,
    const struct expected *expected)
{
    static uint64_t record[KNIT_FRAME_WORDS * DEPTH], word[REGS * DEPTH];
    struct outcome outcome;
    expect_frames(frames, record, word);
    outcome.expected = *expected;
    outcome.frames.len = KNIT_FRAME_WORDS * frames;
    outcome.frames.words = record;
    outcome.registers.len = REGS * frames;
    outcome.registers.words = word;
    check(name, image, terms, &outcome);
}

static void run_deep_cases(struct image *image)
{
    static const struct instr code[] = {FUNCTION(REGS), LOAD_U32(2, 7), CALL(1, 0, 2, 1), RET(0), END};
    static const struct terms enough = {100000, DEPTH, KNIT_FRAME_WORDS * DEPTH, REGS * DEPTH};
    static const struct terms less_frames = {100000, DEPTH, KNIT_FRAME_WORDS * DEPTH - 1, REGS * DEPTH};
    static const struct terms less_registers = {100000, DEPTH, KNIT_FRAME_WORDS * DEPTH, REGS * DEPTH - 1};
    static const struct expected deep = TRAPPED(KNIT_STATUS_CALL_DEPTH_EXCEEDED, 2 * DEPTH);
    static const struct expected no_record = REFUSED(KNIT_FRAME_ROOM, 2 * (DEPTH - 1));
    static const struct expected no_registers = REFUSED(KNIT_REGISTER_ROOM, 2 * (DEPTH - 1));
    put_program(image, 0, code);
    check_deep("enough room for depth 4,096", image, &enough, DEPTH, &deep);
    check_deep("depth 4,096, one word for records less", image, &less_frames, DEPTH - 1, &no_record);
    check_deep("depth 4,096, one register less", image, &less_registers, DEPTH - 1, &no_registers);
}

/* ---- Slices about as long as 2^32 bytes ---- */

static void check_huge(const char *name, const uint8_t *huge, size_t len, const struct outcome *outcome)
{
    static const struct terms terms = ROOMY(5);
    start_case(name);
    end_case(call_is_right(huge, len, 0, &terms, outcome));
}

static void run_huge_cases(struct image *image)
{
    static const uint64_t record[KNIT_FRAME_WORDS] = {0, 5, 0, 0}, word[] = {UNIT};
    static const struct outcome layout = {REFUSED(KNIT_LAYOUT, 0), {0, NULL}, {0, NULL}};
    static const struct outcome ran = {TRAPPED(KNIT_STATUS_FUEL_EXCEEDED, 5), {KNIT_FRAME_WORDS, record}, {1, word}};
    uint8_t *huge = map_huge();
    lay_nops(huge, image, 2);
    check_huge("2 instructions in 2^32 + 64 bytes, 64 in the low half", huge, (size_t)HUGE_LEN, &layout);
    lay_nops(huge, image, 357913937);
    check_huge("the longest image", huge, (size_t)4294967284u, &ran);
    unmap_huge(huge);
}

/* ---- Digests: some worked out elsewhere, and of words that no run gives, by the formula ---- */

static const struct digest_case {
    const char *name;
    uint64_t words[4], digest;
} digest_cases[] = {
    {"the digest of zeros", {0, 0, 0, 0}, 0x449516d9252be94fu},
    {"the digest of document 01's run", {0, 3, 4294967295u, 2}, 0x6ffa4144d88d4a53u},
    {"the digest of a million units of fuel", {6, 0, 0, 1000000}, 0x62965a843da701c9u},
    {"the digest of 1, 2, 3, 4", {1, 2, 3, 4}, 0xee65c8bf4f60002fu},
    {"the digest of words above 2^32", {0x8000000000000000u, 0x10000000000u, 0x200000000u, 0x100000000u}, 0xf081a8d0252be94fu},
    {"the digest of the highest words", {UINT64_MAX, UINT64_MAX, UINT64_MAX, UINT64_MAX}, 0x9a6f54fb512d9419u},
};

static void check_digest(const char *name, const uint64_t *words, uint64_t expected)
{
    uint64_t got = knit_digest(words[0], words[1], words[2], words[3]);
    start_case(name);
    if (got != expected)
        printf("wrong: %s: expected %llx, got %llx\n", name, (unsigned long long)expected, (unsigned long long)got);
    end_case(got == expected);
}

static void run_digest_cases(void)
{
    uint64_t words[4] = {1, 2, 3, 4};
    size_t i;
    for (i = 0; i < COUNT(digest_cases); i++)
        check_digest(digest_cases[i].name, digest_cases[i].words, digest_cases[i].digest);
    for (i = 0; i < 1000; i++) {
        words[i % 4] = digest_of(words[0], words[1], words[2], words[3]);
        check_digest("the digest of any words", words, digest_of(words[0], words[1], words[2], words[3]));
    }
}

int main(void)
{
    static struct image image;
    start_tests();
    make_arena(&frames_arena, sizeof(uint64_t) * ROOM_WORDS);
    make_arena(&registers_arena, sizeof(uint64_t) * ROOM_WORDS);
    run_document_01(&image);
    run_rows(&image);
    each_image_fault(&image, check_fault);
    run_deep_cases(&image);
    run_huge_cases(&image);
    run_digest_cases();
    return end_tests("knit_execute and knit_digest");
}
