#include "check.h"

#include "random.h"
#include "watch.h"

#include <string.h>

/* Too large for a stack; each is written before it is read in every case. */
static struct words before, before_other, left, left_other, left_again;

/* ---- What the lent words hold before a call ---- */

/* Also words that a run could have left there, which an engine must not take for its own. */
static uint64_t word_before(uint64_t style, uint64_t salt, size_t i)
{
    switch (style) {
    case 0:
        return 0;
    case 1:
        return UINT64_MAX;
    case 2:
        return (uint64_t)KNIT_KIND_BOOL << 32 | 1;
    case 3:
        return mixed(salt + i) % 4;
    case 4:
        return mixed(salt + i) % (KNIT_KIND_FX + 1) << 32 | mixed(salt + i) >> 62;
    default:
        return mixed(salt + i);
    }
}

/* The other contents differ in every word, so that afterwards a word is the same in both exactly if the run wrote it. */
static void fill(uint64_t *words, uint64_t *others, size_t len)
{
    uint64_t style = below(8), salt = any_word(), other_salt = any_word();
    size_t i;
    for (i = 0; i < len; i++) {
        words[i] = word_before(style, salt, i);
        others[i] = words[i] ^ (mixed(other_salt + i) | 1);
    }
}

static void fill_before(const struct terms *terms)
{
    fill(before.frames, before_other.frames, terms->frames_len);
    fill(before.registers, before_other.registers, terms->registers_len);
}

/* ---- The answer by itself ---- */

static int is_value(uint64_t kind, uint64_t payload)
{
    static const uint64_t highest[] = {0, 3, 1, UINT32_MAX, UINT32_MAX, UINT32_MAX};
    return kind < COUNT(highest) && payload <= highest[kind];
}

static uint64_t used_by(const struct answer *answer)
{
    return answer->number == KNIT_DONE ? answer->words[3] : answer->words[0];
}

static void check_done(const uint64_t *words, uint64_t fuel)
{
    uint64_t status = words[0], used = words[3];
    if (status > KNIT_STATUS_EXPLICIT_TRAP)
        wrong("status %llu is none", (unsigned long long)status);
    if (!is_value(words[1], words[2]))
        wrong("kind %llu with payload %llu is no value", (unsigned long long)words[1], (unsigned long long)words[2]);
    if (status != KNIT_STATUS_RETURNED && (words[1] != KNIT_KIND_UNIT || words[2] != 0))
        wrong("status %llu, and the value is not Unit", (unsigned long long)status);
    if (status == KNIT_STATUS_FUEL_EXCEEDED && used != fuel)
        wrong("FuelExceeded, and %llu of %llu units used", (unsigned long long)used, (unsigned long long)fuel);
    if (status != KNIT_STATUS_FUEL_EXCEEDED && status != KNIT_STATUS_INVALID_PC && used == 0)
        wrong("status %llu, and no instruction was begun", (unsigned long long)status);
    check_digest(words, words[4]);
}

static void check_answer(const struct answer *answer, uint64_t fuel)
{
    struct answer refusal = answer_of(answer->number, answer->words[0], 0, 0);
    if (answer->number != KNIT_DONE && answer->number != KNIT_FRAME_ROOM && answer->number != KNIT_REGISTER_ROOM)
        wrong("number %llu, and the bytes are an image", (unsigned long long)answer->number);
    if (used_by(answer) > fuel)
        wrong("%llu units used of %llu", (unsigned long long)used_by(answer), (unsigned long long)fuel);
    if (answer->number == KNIT_DONE)
        check_done(answer->words, fuel);
    else
        expect_answer("a refusal for want of room", &refusal, answer);
}

/* Bytes that are no image, and an entry that doesn't exist, have one answer each. */
static int has_fixed_answer(const struct input *input, struct answer *expected)
{
    uint64_t words[4] = {KNIT_STATUS_INVALID_FUNCTION, KNIT_KIND_UNIT, 0, 0};
    *expected = answer_of(input->fault.number, input->fault.value, 0, 0);
    if (input->fault.number != 0)
        return 1;
    if (entry_of(&input->image) < functions_of(&input->image))
        return 0;
    *expected = answer_of(KNIT_DONE, words[0], words[1], words[2]);
    expected->words[4] = call_digest(words);
    check_digest(words, expected->words[4]);
    return 1;
}

/* ---- Lent memory ---- */

/* How many words the run wrote: a beginning that is the same after both contents, and nothing after it. */
static size_t written(const char *what, const uint64_t *one, const uint64_t *other, const uint64_t *one_before,
    const uint64_t *other_before, size_t len)
{
    size_t count = 0, i;
    while (count < len && one[count] == other[count])
        count++;
    for (i = count; i < len; i++)
        if (one[i] != one_before[i] || other[i] != other_before[i])
            wrong("%s: the run wrote %lu words, and then word %lu, or a word there depends on what it held before", what,
                (unsigned long)count, (unsigned long)i);
    return count;
}

static void expect_same(const char *why, const uint64_t *one, const uint64_t *other, size_t len)
{
    size_t i;
    if (memcmp(one, other, len * sizeof *one) == 0)
        return;
    for (i = 0; one[i] == other[i]; i++)
        ;
    wrong("%s: word %lu is %llx once and %llx then", why, (unsigned long)i, (unsigned long long)one[i],
        (unsigned long long)other[i]);
}

static void expect_same_words(const char *why, const struct words *one, const struct words *other, const struct terms *terms)
{
    expect_same(why, one->frames, other->frames, terms->frames_len);
    expect_same(why, one->registers, other->registers, terms->registers_len);
}

static uint64_t largest_regs(const struct image *image)
{
    uint64_t largest = 0;
    uint32_t i;
    for (i = 0; i < functions_of(image); i++)
        if (function_at(image, i).regs > largest)
            largest = function_at(image, i).regs;
    return largest;
}

static uint64_t most_records(const struct terms *terms)
{
    return terms->depth == 0 ? 1 : terms->depth;
}

/* How far a run can come at all, and what stands there. */
static void check_reach(const struct input *input, const struct run *run)
{
    uint64_t used = used_by(&run->answer);
    size_t i;
    if (run->records > most_records(&input->terms) || run->records > used + 1)
        wrong("%lu records written, depth %u, %llu units used", (unsigned long)run->records, input->terms.depth,
            (unsigned long long)used);
    if (run->registers > run->records * largest_regs(&input->image))
        wrong("%lu registers written with %lu records", (unsigned long)run->registers, (unsigned long)run->records);
    for (i = 0; i < run->registers; i++)
        if (!is_value(left.registers[i] >> 32, left.registers[i] & UINT32_MAX))
            wrong("register word %lu is %llx, no value", (unsigned long)i, (unsigned long long)left.registers[i]);
}

static void measure(const struct terms *terms, struct run *run)
{
    size_t words = written("frames", left.frames, left_other.frames, before.frames, before_other.frames, terms->frames_len);
    if (words % KNIT_FRAME_WORDS != 0)
        wrong("%lu words of frames written, which are not whole records", (unsigned long)words);
    run->records = words / KNIT_FRAME_WORDS;
    run->registers = written("registers", left.registers, left_other.registers, before.registers, before_other.registers,
        terms->registers_len);
}

/* ---- The same run with other fuel and other room ---- */

/* The last instruction of a run wrote nothing, unless the run went on after it. */
static int last_wrote_nothing(const struct answer *answer)
{
    return answer->number != KNIT_DONE
        || (answer->words[0] != KNIT_STATUS_INVALID_PC && answer->words[0] != KNIT_STATUS_FUEL_EXCEEDED);
}

/* One unit less than was used: the run stops before its last instruction. */
static void check_less_fuel(const struct input *input, const struct run *run)
{
    struct terms terms = input->terms;
    struct answer got, expected = answer_of(KNIT_DONE, KNIT_STATUS_FUEL_EXCEEDED, KNIT_KIND_UNIT, 0);
    if (used_by(&run->answer) == 0)
        return;
    terms.fuel = expected.words[3] = used_by(&run->answer) - 1;
    got = call_execute(&input->image, &terms, &before, &left_again);
    expected.words[4] = got.words[4];
    expect_answer("a run with one unit less than it used", &expected, &got);
    if (last_wrote_nothing(&run->answer))
        expect_same_words("the last instruction wrote", &left, &left_again, &terms);
    check_digest(got.words, got.words[4]);
}

/* What ended by itself ends alike with just what it used, and with all the fuel there is. */
static void check_other_fuel(const struct input *input, const struct run *run)
{
    struct terms terms = input->terms;
    struct answer got;
    if (run->answer.number == KNIT_DONE && run->answer.words[0] == KNIT_STATUS_FUEL_EXCEEDED)
        return;
    terms.fuel = one_in(2) ? UINT64_MAX : used_by(&run->answer);
    got = call_execute(&input->image, &terms, &before, &left_again);
    expect_answer("other fuel, enough too", &run->answer, &got);
    expect_same_words("other fuel, enough too", &left, &left_again, &terms);
}

/* The first words are those that a run wrote elsewhere, the others as they were. */
static void expect_words(const char *why, const uint64_t *got, const uint64_t *run, size_t count, const uint64_t *lent, size_t len)
{
    expect_same(why, run, got, count);
    expect_same(why, lent + count, got + count, len - count);
}

/* Document 01's enough room, to the word: no refusal for want of it, and the same run as far as it went. */
static void check_enough_room(const struct input *input, const struct run *run)
{
    struct terms terms = input->terms;
    uint64_t records = most_records(&terms), registers = records * largest_regs(&input->image);
    struct answer got;
    if (registers > REGISTER_ROOM || (registers > 4096 && !one_in(16)))
        return;
    terms.frames_len = (size_t)records * KNIT_FRAME_WORDS;
    terms.registers_len = (size_t)registers;
    fill_before(&terms);
    got = call_execute(&input->image, &terms, &before, &left_again);
    if (got.number != KNIT_DONE)
        wrong("refused %llu with enough room", (unsigned long long)got.number);
    if (run->answer.number != KNIT_DONE && used_by(&got) < used_by(&run->answer))
        wrong("with enough room less fuel is used than before the refusal");
    if (run->answer.number == KNIT_DONE) {
        expect_answer("enough room", &run->answer, &got);
        expect_words("frames in enough room", left_again.frames, left.frames, run->records * KNIT_FRAME_WORDS, before.frames,
            terms.frames_len);
        expect_words("registers in enough room", left_again.registers, left.registers, run->registers, before.registers,
            terms.registers_len);
    }
    check_answer(&got, terms.fuel);
}

/* ---- All of it ---- */

static void check_laws_of_admission(const struct answer *answer)
{
    if (answer->number == KNIT_DONE && answer->words[0] == KNIT_STATUS_INVALID_REGISTER)
        wrong("an admitted program met a register that isn't there");
    if (answer->number == KNIT_DONE && answer->words[0] == KNIT_STATUS_INVALID_FUNCTION)
        wrong("an admitted program met a function that isn't there");
}

/* Of a run that got as far as the entry's frame. */
static void check_run(const struct input *input, const struct run *run, int admitted)
{
    check_reach(input, run);
    check_stack(input, run, &left, admitted);
    check_less_fuel(input, run);
    check_other_fuel(input, run);
}

struct run check_execute(const struct input *input, int admitted)
{
    struct answer fixed, got;
    struct run run;
    int is_fixed = has_fixed_answer(input, &fixed), entered;
    fill_before(&input->terms);
    run.answer = call_execute(&input->image, &input->terms, &before, &left);
    if (is_fixed)
        expect_answer("no image, or no entry", &fixed, &run.answer);
    else
        check_answer(&run.answer, input->terms.fuel);
    got = call_execute(&input->image, &input->terms, &before, &left_again);
    expect_answer("the same call again", &run.answer, &got);
    expect_same_words("the same call again", &left, &left_again, &input->terms);
    got = call_execute(&input->image, &input->terms, &before_other, &left_other);
    expect_answer("other words lent", &run.answer, &got);
    measure(&input->terms, &run);
    entered = !is_fixed && (run.answer.number == KNIT_DONE || used_by(&run.answer) > 0);
    if ((run.records > 0) != entered || (!entered && run.registers > 0))
        wrong("%lu records and %lu registers written", (unsigned long)run.records, (unsigned long)run.registers);
    if (entered)
        check_run(input, &run, admitted);
    if (admitted)
        check_laws_of_admission(&run.answer);
    if (!is_fixed)
        check_enough_room(input, &run);
    return run;
}
