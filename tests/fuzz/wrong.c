/*
 * Engines that are wrong in one way each, for the fuzzer's self-test: the right engine's functions, with something done after the
 * call or in its place. Only the self-test links this; there the fuzzer's calls come here. The variable KNIT_WRONG names the
 * engine, and without it all calls are passed on as they are.
 */
#include "knitcauldron.h"

#include <stdlib.h>
#include <string.h>

#define COUNT(table) (sizeof(table) / sizeof((table)[0]))

/* ---- Runs ---- */

struct execution {
    const uint8_t *image;
    size_t image_len;
    uint64_t fuel;
    uint64_t *frames;
    size_t frames_len;
    uint64_t *registers;
    size_t registers_len;
    uint64_t *answer;
    uint64_t lent_word, lent_answer; /* the first register and the answer's last word, as they were before */
    uint64_t number;                 /* what the right engine answered, and what is answered now */
};

static int ended(const struct execution *run, uint64_t status)
{
    return run->number == KNIT_DONE && run->answer[0] == status;
}

static void renew_digest(const struct execution *run)
{
    run->answer[4] = knit_digest(run->answer[0], run->answer[1], run->answer[2], run->answer[3]);
}

static void writes_past_the_frames(struct execution *run)
{
    if (run->number == KNIT_FRAME_ROOM)
        run->frames[run->frames_len] = 0;
}

static void writes_before_the_frames(struct execution *run)
{
    if (run->number == KNIT_DONE)
        run->frames[-1] = 0;
}

static void writes_past_the_registers(struct execution *run)
{
    if (run->number == KNIT_REGISTER_ROOM)
        run->registers[run->registers_len] = 0;
}

static void writes_past_the_answer(struct execution *run)
{
    if (run->number == KNIT_FORM)
        run->answer[KNIT_ANSWER_WORDS] = 0;
}

static void writes_beyond_the_run(struct execution *run)
{
    if (ended(run, KNIT_STATUS_RETURNED) && run->registers_len > 200)
        run->registers[run->registers_len - 1] = 0;
}

static void reads_past_the_image(struct execution *run)
{
    const volatile uint8_t *image = run->image;
    if (run->number == KNIT_INSTRUCTION)
        (void)image[run->image_len];
}

static void reads_before_the_image(struct execution *run)
{
    const volatile uint8_t *image = run->image;
    if (run->number == KNIT_DONE)
        (void)image[-1];
}

static void reads_past_the_frames(struct execution *run)
{
    const volatile uint64_t *frames = run->frames;
    if (run->number == KNIT_FRAME_ROOM)
        (void)frames[run->frames_len];
}

static void changes_the_image(struct execution *run)
{
    if (run->number == KNIT_FRAME_ROOM)
        ((uint8_t *)(uintptr_t)run->image)[run->image_len - 1] ^= 1;
}

static void changes_the_image_and_back(struct execution *run)
{
    volatile uint8_t *image = (volatile uint8_t *)(uintptr_t)run->image;
    if (run->number == KNIT_DONE) {
        image[0] = 2;
        image[0] = 1;
    }
}

static void leaves_an_answer_word(struct execution *run)
{
    if (run->number == KNIT_REGISTER_ROOM)
        run->answer[4] = run->lent_answer;
}

static void counts_one_unit_more(struct execution *run)
{
    if (ended(run, KNIT_STATUS_RETURNED) && run->answer[3] > 12 && run->answer[3] < run->fuel) {
        run->answer[3]++;
        renew_digest(run);
    }
}

static void counts_one_unit_less(struct execution *run)
{
    if (ended(run, KNIT_STATUS_INTEGER_OVERFLOW) && run->answer[3] > 1) {
        run->answer[3]--;
        renew_digest(run);
    }
}

static void stops_short_of_the_limit(struct execution *run)
{
    if (ended(run, KNIT_STATUS_FUEL_EXCEEDED) && run->answer[3] > 40) {
        run->answer[3]--;
        renew_digest(run);
    }
}

static void never_returns(struct execution *run)
{
    volatile int forever = ended(run, KNIT_STATUS_DIVISION_BY_ZERO);
    while (forever)
        ;
}

static void writes_on_an_image_fault(struct execution *run)
{
    if (run->number == KNIT_LAYOUT && run->frames_len > 0)
        run->frames[0] = 0;
}

static void writes_on_a_refused_entry(struct execution *run)
{
    if (run->number == KNIT_REGISTER_ROOM && run->answer[0] == 0 && run->registers_len > 0)
        run->registers[0] = 0;
}

static void writes_on_a_missing_entry(struct execution *run)
{
    if (ended(run, KNIT_STATUS_INVALID_FUNCTION) && run->answer[3] == 0 && run->frames_len > 3)
        memset(run->frames, 0, KNIT_FRAME_WORDS * sizeof *run->frames);
}

static void forgets_the_fuel_in_the_digest(struct execution *run)
{
    if (ended(run, KNIT_STATUS_ASSERT_FAILED))
        run->answer[4] = knit_digest(run->answer[0], run->answer[1], run->answer[2], 0);
}

static void remembers_calls(struct execution *run)
{
    static unsigned long calls;
    if (++calls % 997 == 0 && ended(run, KNIT_STATUS_RETURNED) && run->answer[1] >= KNIT_KIND_I32) {
        run->answer[2] ^= 1;
        renew_digest(run);
    }
}

static void takes_what_was_lent(struct execution *run)
{
    if (ended(run, KNIT_STATUS_FUEL_EXCEEDED) && run->registers_len > 0 && (run->lent_word & 7) == 3)
        run->registers[0] = (uint64_t)KNIT_KIND_BOOL << 32;
}

static void moves_on_after_a_trap(struct execution *run)
{
    if (ended(run, KNIT_STATUS_EXPLICIT_TRAP))
        run->frames[KNIT_FRAME_PLACE]++;
}

static void stands_past_the_length(struct execution *run)
{
    if (ended(run, KNIT_STATUS_INVALID_PC))
        run->frames[KNIT_FRAME_PLACE]++;
}

static void leaves_no_value(struct execution *run)
{
    if (ended(run, KNIT_STATUS_TYPE_MISMATCH) && run->registers_len > 0)
        run->registers[0] = 9u;
}

static void names_another_function(struct execution *run)
{
    if (ended(run, KNIT_STATUS_RETURNED) && run->frames_len > 8)
        run->frames[KNIT_FRAME_FUNCTION] ^= 1;
}

static void refuses_though_there_is_room(struct execution *run)
{
    if (ended(run, KNIT_STATUS_RETURNED) && run->registers_len < 5) {
        run->number = KNIT_REGISTER_ROOM;
        memset(run->answer, 0, KNIT_ANSWER_WORDS * sizeof *run->answer);
        run->answer[0] = 1;
    }
}

static void has_another_status(struct execution *run)
{
    if (ended(run, KNIT_STATUS_EXPLICIT_TRAP)) {
        run->answer[0]++;
        renew_digest(run);
    }
}

static void has_another_bool(struct execution *run)
{
    if (ended(run, KNIT_STATUS_RETURNED) && run->answer[1] == KNIT_KIND_BOOL && run->answer[2] == 1) {
        run->answer[2] = 2;
        renew_digest(run);
    }
}

static void traps_with_a_value(struct execution *run)
{
    if (ended(run, KNIT_STATUS_DIVISION_BY_ZERO)) {
        run->answer[1] = KNIT_KIND_I32;
        renew_digest(run);
    }
}

static void blames_a_register(struct execution *run)
{
    if (ended(run, KNIT_STATUS_TYPE_MISMATCH)) {
        run->answer[0] = KNIT_STATUS_INVALID_REGISTER;
        renew_digest(run);
    }
}

static void aborts(struct execution *run)
{
    if (run->number == KNIT_FUNCTION_TABLE)
        abort();
}

static uint64_t sink_into_the_stack(uint64_t depth)
{
    volatile char room[4096];
    room[depth % sizeof room] = 1;
    return depth == 0 ? 0 : sink_into_the_stack(depth - 1) + (uint64_t)room[0];
}

static void uses_up_the_stack(struct execution *run)
{
    if (ended(run, KNIT_STATUS_CALL_DEPTH_EXCEEDED))
        run->number = sink_into_the_stack(UINT64_MAX);
}

static void answers_too_long(struct execution *run)
{
    if (run->number == KNIT_SHORT)
        run->number = KNIT_TOO_LONG;
}

static const struct wrong_execution {
    const char *name;
    void (*after)(struct execution *run);
} executions[] = {
    {"writes-past-the-frames", writes_past_the_frames},
    {"writes-before-the-frames", writes_before_the_frames},
    {"writes-past-the-registers", writes_past_the_registers},
    {"writes-past-the-answer", writes_past_the_answer},
    {"writes-beyond-the-run", writes_beyond_the_run},
    {"reads-past-the-image", reads_past_the_image},
    {"reads-before-the-image", reads_before_the_image},
    {"reads-past-the-frames", reads_past_the_frames},
    {"changes-the-image", changes_the_image},
    {"changes-the-image-and-back", changes_the_image_and_back},
    {"leaves-an-answer-word", leaves_an_answer_word},
    {"counts-one-unit-more", counts_one_unit_more},
    {"counts-one-unit-less", counts_one_unit_less},
    {"stops-short-of-the-limit", stops_short_of_the_limit},
    {"never-returns", never_returns},
    {"writes-on-an-image-fault", writes_on_an_image_fault},
    {"writes-on-a-refused-entry", writes_on_a_refused_entry},
    {"writes-on-a-missing-entry", writes_on_a_missing_entry},
    {"forgets-the-fuel-in-the-digest", forgets_the_fuel_in_the_digest},
    {"remembers-calls", remembers_calls},
    {"takes-what-was-lent", takes_what_was_lent},
    {"moves-on-after-a-trap", moves_on_after_a_trap},
    {"stands-past-the-length", stands_past_the_length},
    {"leaves-no-value", leaves_no_value},
    {"names-another-function", names_another_function},
    {"refuses-though-there-is-room", refuses_though_there_is_room},
    {"has-another-status", has_another_status},
    {"has-another-bool", has_another_bool},
    {"traps-with-a-value", traps_with_a_value},
    {"blames-a-register", blames_a_register},
    {"aborts", aborts},
    {"uses-up-the-stack", uses_up_the_stack},
    {"answers-too-long", answers_too_long},
};

/* ---- Verdicts ---- */

struct validation {
    uint64_t number;
    uint64_t *answer;
    uint64_t lent_answer;
};

static void admits_a_missing_register(struct validation *verdict)
{
    if (verdict->number == KNIT_INVALID_REGISTER) {
        verdict->number = KNIT_ADMITTED;
        memset(verdict->answer, 0, KNIT_ANSWER_WORDS * sizeof *verdict->answer);
    }
}

static void admits_nothing(struct validation *verdict)
{
    if (verdict->number == KNIT_ADMITTED)
        verdict->number = KNIT_MISSING_RETURN;
}

static void blames_another_function(struct validation *verdict)
{
    if (verdict->number == KNIT_MISSING_RETURN)
        verdict->answer[0]++;
}

static void takes_layout_for_form(struct validation *verdict)
{
    if (verdict->number == KNIT_LAYOUT)
        verdict->number = KNIT_FORM;
}

static void leaves_a_verdict_word(struct validation *verdict)
{
    if (verdict->number == KNIT_INVALID_ARG_WINDOW)
        verdict->answer[4] = verdict->lent_answer;
}

static void writes_past_a_verdict(struct validation *verdict)
{
    if (verdict->number == KNIT_EMPTY_PROGRAM)
        verdict->answer[KNIT_ANSWER_WORDS] = 0;
}

static const struct wrong_validation {
    const char *name;
    void (*after)(struct validation *verdict);
} validations[] = {
    {"admits-a-missing-register", admits_a_missing_register},
    {"admits-nothing", admits_nothing},
    {"blames-another-function", blames_another_function},
    {"takes-layout-for-form", takes_layout_for_form},
    {"leaves-a-verdict-word", leaves_a_verdict_word},
    {"writes-past-a-verdict", writes_past_a_verdict},
};

/* ---- Identifiers ---- */

struct event {
    uint8_t *out;
    size_t out_len;
    uint64_t *answer;
    uint64_t lent_answer;
    uint64_t number;
};

static void ends_with_a_zero(struct event *event)
{
    if (event->number == 0)
        event->out[KNIT_EVENT_ID_BYTES] = 0;
}

static void clears_the_rest(struct event *event)
{
    if (event->number == 0)
        memset(event->out + KNIT_EVENT_ID_BYTES, 0, event->out_len - KNIT_EVENT_ID_BYTES);
}

static void has_capital_digits(struct event *event)
{
    size_t i;
    for (i = 0; event->number == 0 && i < KNIT_EVENT_ID_BYTES; i++)
        if (event->out[i] == 'e')
            event->out[i] = 'E';
}

static void writes_a_refused_identifier(struct event *event)
{
    if (event->number != 0 && event->out_len == KNIT_EVENT_ID_BYTES - 1)
        event->out[0] = '0';
}

static void wants_a_byte_more(struct event *event)
{
    if (event->out_len == KNIT_EVENT_ID_BYTES)
        event->number = KNIT_ID_ROOM;
}

static void leaves_a_word_of_an_identifier(struct event *event)
{
    if (event->number != 0)
        event->answer[4] = event->lent_answer;
}

static const struct wrong_event {
    const char *name;
    void (*after)(struct event *event);
} events[] = {
    {"ends-with-a-zero", ends_with_a_zero},
    {"clears-the-rest", clears_the_rest},
    {"has-capital-digits", has_capital_digits},
    {"writes-a-refused-identifier", writes_a_refused_identifier},
    {"wants-a-byte-more", wants_a_byte_more},
    {"leaves-a-word-of-an-identifier", leaves_a_word_of_an_identifier},
};

/* ---- Digests ---- */

static uint64_t by_the_prime_of_fnv(const uint64_t *words)
{
    uint64_t digest = 0xcbf29ce484222325u;
    size_t i;
    for (i = 0; i < 5; i++)
        digest = (digest ^ words[i]) * (((uint64_t)1 << 40) + 435);
    return digest;
}

static const struct wrong_digest {
    const char *name;
    uint64_t (*instead)(const uint64_t *words);
} digests[] = {
    {"by-the-prime-of-fnv", by_the_prime_of_fnv},
};

/* ---- Where the fuzzer's calls come to ---- */

/* Whether an engine of this name is the chosen one; a name that none has is noticed by the self-test, which then finds nothing. */
static int is_chosen(const char *name)
{
    static const char *chosen;
    static int is_known;
    if (!is_known) {
        chosen = getenv("KNIT_WRONG");
        is_known = 1;
    }
    return chosen != NULL && strcmp(chosen, name) == 0;
}

uint64_t wrong_validate(const uint8_t *image, size_t image_len, uint16_t max_registers, uint16_t max_functions,
    uint16_t max_call_depth, uint32_t max_instrs_per_function, uint64_t max_fuel, uint64_t *answer);
uint64_t wrong_execute(const uint8_t *image, size_t image_len, uint64_t fuel, uint16_t max_call_depth, uint64_t *frames,
    size_t frames_len, uint64_t *registers, size_t registers_len, uint64_t *answer);
uint64_t wrong_digest(uint64_t status, uint64_t kind, uint64_t payload, uint64_t fuel_used);
uint64_t wrong_event_id(uint32_t lesson, uint64_t digest, uint8_t *out, size_t out_len, uint64_t *answer);

uint64_t wrong_validate(const uint8_t *image, size_t image_len, uint16_t max_registers, uint16_t max_functions,
    uint16_t max_call_depth, uint32_t max_instrs_per_function, uint64_t max_fuel, uint64_t *answer)
{
    struct validation verdict;
    size_t i;
    verdict.answer = answer;
    verdict.lent_answer = answer[4];
    verdict.number = knit_validate(image, image_len, max_registers, max_functions, max_call_depth, max_instrs_per_function,
        max_fuel, answer);
    for (i = 0; i < COUNT(validations); i++)
        if (is_chosen(validations[i].name))
            validations[i].after(&verdict);
    return verdict.number;
}

uint64_t wrong_execute(const uint8_t *image, size_t image_len, uint64_t fuel, uint16_t max_call_depth, uint64_t *frames,
    size_t frames_len, uint64_t *registers, size_t registers_len, uint64_t *answer)
{
    struct execution run = {image, image_len, fuel, frames, frames_len, registers, registers_len, answer, 0, 0, 0};
    size_t i;
    run.lent_word = registers_len > 0 ? registers[0] : 0;
    run.lent_answer = answer[4];
    run.number = knit_execute(image, image_len, fuel, max_call_depth, frames, frames_len, registers, registers_len, answer);
    for (i = 0; i < COUNT(executions); i++)
        if (is_chosen(executions[i].name))
            executions[i].after(&run);
    return run.number;
}

uint64_t wrong_digest(uint64_t status, uint64_t kind, uint64_t payload, uint64_t fuel_used)
{
    uint64_t words[5] = {status, kind, payload, 0, fuel_used};
    size_t i;
    for (i = 0; i < COUNT(digests); i++)
        if (is_chosen(digests[i].name))
            return digests[i].instead(words);
    return knit_digest(status, kind, payload, fuel_used);
}

uint64_t wrong_event_id(uint32_t lesson, uint64_t digest, uint8_t *out, size_t out_len, uint64_t *answer)
{
    struct event event;
    size_t i;
    event.out = out;
    event.out_len = out_len;
    event.answer = answer;
    event.lent_answer = answer[4];
    event.number = knit_event_id(lesson, digest, out, out_len, answer);
    for (i = 0; i < COUNT(events); i++)
        if (is_chosen(events[i].name))
            events[i].after(&event);
    return event.number;
}
