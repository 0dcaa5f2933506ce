#include "check.h"

#include "random.h"
#include "watch.h"

#include <string.h>

void expect_answer(const char *why, const struct answer *expected, const struct answer *got)
{
    const uint64_t *e = expected->words, *g = got->words;
    if (expected->number == got->number && memcmp(e, g, sizeof expected->words) == 0)
        return;
    wrong("%s: expected %llu: %llx %llx %llx %llx %llx, got %llu: %llx %llx %llx %llx %llx", why,
        (unsigned long long)expected->number, (unsigned long long)e[0], (unsigned long long)e[1], (unsigned long long)e[2],
        (unsigned long long)e[3], (unsigned long long)e[4], (unsigned long long)got->number, (unsigned long long)g[0],
        (unsigned long long)g[1], (unsigned long long)g[2], (unsigned long long)g[3], (unsigned long long)g[4]);
}

/* ---- knit_validate ---- */

/* Twice, so that a word that was not written, or anything kept between calls, shows. */
static struct answer checked_verdict(const struct image *image, const struct limits *limits)
{
    struct answer expected = verdict_on(image, limits), got = call_validate(image, limits);
    expect_answer("the verdict", &expected, &got);
    got = call_validate(image, limits);
    expect_answer("the verdict, asked again", &expected, &got);
    return got;
}

struct answer check_validate(const struct input *input)
{
    checked_verdict(&input->image, &input->limits);
    return checked_verdict(&input->image, &safe_limits);
}

/* ---- knit_digest ---- */

static uint64_t digest_of(const uint64_t *words)
{
    uint64_t parts[5], digest = 0xcbf29ce484222325u, i;
    parts[0] = words[0];
    parts[1] = words[1];
    parts[2] = words[2];
    parts[3] = 0;
    parts[4] = words[3];
    for (i = 0; i < COUNT(parts); i++)
        digest = (digest ^ parts[i]) * (((uint64_t)1 << 44) + 435);
    return digest;
}

static void expect_digest(uint64_t expected, uint64_t got)
{
    if (expected != got)
        wrong("expected the digest %llx, got %llx", (unsigned long long)expected, (unsigned long long)got);
}

void check_digest(const uint64_t *words, uint64_t digest)
{
    expect_digest(digest_of(words), digest);
    expect_digest(digest, call_digest(words));
}

void check_any_digest(void)
{
    uint64_t words[4];
    size_t i;
    for (i = 0; i < COUNT(words); i++)
        words[i] = any_number();
    expect_digest(digest_of(words), call_digest(words));
}

/* ---- knit_event_id ---- */

static void put_hex(uint8_t *at, uint64_t number, int digits)
{
    while (digits-- > 0) {
        at[digits] = (uint8_t)"0123456789abcdef"[number % 16];
        number /= 16;
    }
}

static void put_identifier(uint8_t *at, uint32_t lesson, uint64_t digest)
{
    put_hex(at, lesson, 8);
    at[8] = '-';
    put_hex(at + 9, digest, 16);
}

/* Called twice, with other bytes in `out` each time: those that the call writes must be the same, and the others stay. */
void check_event_id(const struct input *input)
{
    int fits = input->out_len >= KNIT_EVENT_ID_BYTES, round;
    struct answer expected = fits ? answer_of(0, KNIT_EVENT_ID_BYTES, 0, 0) : answer_of(KNIT_ID_ROOM, 0, 0, 0), got;
    uint8_t after[OUT_ROOM], out[OUT_ROOM];
    size_t i;
    for (round = 0; round < 2; round++) {
        for (i = 0; i < input->out_len; i++)
            after[i] = out[i] = (uint8_t)any_word();
        if (fits)
            put_identifier(after, input->lesson, input->digest);
        got = call_event_id(input->lesson, input->digest, out, input->out_len);
        expect_answer("an identifier", &expected, &got);
        if (memcmp(out, after, input->out_len) != 0)
            wrong("the lent bytes are not the identifier and, after it, what they were");
    }
}
