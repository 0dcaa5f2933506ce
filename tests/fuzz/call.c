#include "call.h"

#include "guard.h"
#include "random.h"
#include "tally.h"
#include "watch.h"

#include <string.h>

#define WORD sizeof(uint64_t)

static struct arena image_arena, frames_arena, registers_arena, answer_arena, out_arena;

void make_arenas(void)
{
    make_arena(&image_arena, IMAGE_ROOM);
    make_arena(&frames_arena, WORD * FRAME_ROOM);
    make_arena(&registers_arena, WORD * REGISTER_ROOM);
    make_arena(&answer_arena, WORD * KNIT_ANSWER_WORDS);
    make_arena(&out_arena, OUT_ROOM);
}

/* ---- What each call lends ---- */

static void lay_bytes(struct lent *lent, const struct arena *arena, const uint8_t *bytes, size_t len)
{
    lay(lent, arena, len, 1);
    memcpy(lent->at, bytes, len);
}

static uint64_t *lay_words(struct lent *lent, const struct arena *arena, const uint64_t *words, size_t len)
{
    lay(lent, arena, WORD * len, WORD);
    memcpy(lent->at, words, WORD * len);
    return (uint64_t *)(void *)lent->at;
}

/* Other words each time: one that a call does not write is then not the same in two calls. */
static uint64_t *lay_answer(struct lent *lent)
{
    uint64_t poison[KNIT_ANSWER_WORDS];
    size_t i;
    for (i = 0; i < COUNT(poison); i++)
        poison[i] = any_word();
    return lay_words(lent, &answer_arena, poison, COUNT(poison));
}

/* A write to the image is seen by its bytes, one that is taken back only where writing is forbidden. Forbidding it takes a call of
 * the system, and so is done for some calls only. */
static int image_is_forbidden;

static void lay_image(struct lent *lent, const struct image *image)
{
    lay_bytes(lent, &image_arena, image->bytes, image->len);
    image_is_forbidden = one_in(8);
    if (image_is_forbidden)
        forbid_writing(&image_arena);
}

static void expect_guards(const struct lent *lent, const char *what)
{
    if (!guards_stand(lent))
        wrong("bytes beside the %s were changed", what);
}

static void expect_image(const struct lent *lent, const struct image *image)
{
    if (image_is_forbidden)
        allow_writing(&image_arena);
    expect_guards(lent, "image");
    if (memcmp(lent->at, image->bytes, image->len) != 0)
        wrong("the image was changed");
}

static struct answer take_answer(const struct lent *lent, uint64_t number)
{
    struct answer answer;
    expect_guards(lent, "answer");
    answer.number = number;
    memcpy(answer.words, lent->at, sizeof answer.words);
    return answer;
}

/* ---- The calls ---- */

struct answer call_validate(const struct image *image, const struct limits *limits)
{
    struct lent lent_image, lent_answer;
    uint64_t *words = lay_answer(&lent_answer), number;
    lay_image(&lent_image, image);
    enter_call("knit_validate");
    number = knit_validate(lent_image.at, lent_image.len, limits->registers, limits->functions, limits->call_depth, limits->instrs,
        limits->fuel, words);
    leave_call();
    expect_image(&lent_image, image);
    if (number > KNIT_INSTRUCTION && (number < KNIT_PROFILE || number > KNIT_INVALID_ARG_WINDOW))
        wrong("number %llu is none of its answers", (unsigned long long)number);
    count_number(number);
    return take_answer(&lent_answer, number);
}

struct answer call_execute(const struct image *image, const struct terms *terms, const struct words *before, struct words *after)
{
    struct lent lent_image, lent_frames, lent_registers, lent_answer;
    uint64_t *frames = lay_words(&lent_frames, &frames_arena, before->frames, terms->frames_len);
    uint64_t *registers = lay_words(&lent_registers, &registers_arena, before->registers, terms->registers_len);
    uint64_t *words = lay_answer(&lent_answer), number;
    lay_image(&lent_image, image);
    enter_call("knit_execute");
    number = knit_execute(lent_image.at, lent_image.len, terms->fuel, terms->depth, frames, terms->frames_len, registers,
        terms->registers_len, words);
    leave_call();
    expect_image(&lent_image, image);
    expect_guards(&lent_frames, "frames");
    expect_guards(&lent_registers, "registers");
    if (number > KNIT_REGISTER_ROOM)
        wrong("number %llu is none of its answers", (unsigned long long)number);
    memcpy(after->frames, frames, lent_frames.len);
    memcpy(after->registers, registers, lent_registers.len);
    count_number(number);
    if (number == KNIT_DONE)
        count_status(words[0]);
    return take_answer(&lent_answer, number);
}

uint64_t call_digest(const uint64_t *words)
{
    uint64_t digest;
    enter_call("knit_digest");
    digest = knit_digest(words[0], words[1], words[2], words[3]);
    leave_call();
    return digest;
}

struct answer call_event_id(uint32_t lesson, uint64_t digest, uint8_t *out, size_t len)
{
    struct lent lent_out, lent_answer;
    uint64_t *words = lay_answer(&lent_answer), number;
    lay_bytes(&lent_out, &out_arena, out, len);
    enter_call("knit_event_id");
    number = knit_event_id(lesson, digest, lent_out.at, len, words);
    leave_call();
    expect_guards(&lent_out, "identifier");
    if (number != 0 && number != KNIT_ID_ROOM)
        wrong("number %llu is none of its answers", (unsigned long long)number);
    memcpy(out, lent_out.at, len);
    count_number(number);
    return take_answer(&lent_answer, number);
}
