/*
 * knit_event_id as a caller in C or C++ sees it: every number of bytes from none to more than twice as many as are needed, at every
 * alignment, up to a page that may not be touched and from the end of such a page on. At each place the bytes are filled with
 * another one beforehand, and afterwards every byte of their pages is compared.
 */
#include "boundary.h"

#include <stdio.h>
#include <string.h>

#define MIDDLE 64     /* bytes before the lent ones where they are not beside a page that may not be touched */
#define LAST_LENGTH 60
#define OUT_PLACES 10 /* up to the pages' end, from their start, and in the middle at the eight alignments */

static struct arena out_arena;

/* Among them what the identifier itself has, and what a caller's buffer often holds. */
static const uint8_t fills[] = {0xA5, 0x00, 0xFF, '-', '0', 'f', ' '};

static uint8_t fill_of(int place)
{
    return fills[(size_t)place % COUNT(fills)];
}

static uint8_t *lay_out(size_t len, int place)
{
    memset(out_arena.start, fill_of(place), out_arena.len);
    if (place == 0)
        return out_arena.end - len;
    return place == 1 ? out_arena.start : out_arena.start + MIDDLE + (place - 2);
}

/* Looks at every byte of the arena; `at` is where the lent ones began, and `written` of them must be the text's. */
static int bytes_are_right(const uint8_t *at, int place, const char *text, size_t written)
{
    const uint8_t *byte;
    for (byte = out_arena.start; byte < out_arena.end; byte++) {
        int inside = byte >= at && byte < at + written;
        uint8_t expected = inside ? (uint8_t)text[byte - at] : fill_of(place);
        if (*byte != expected) {
            printf("wrong: %s: byte %ld: expected %02x, got %02x\n", case_name(), (long)(byte - at), expected, *byte);
            return 0;
        }
    }
    return 1;
}

struct event {
    uint32_t lesson;
    uint64_t digest;
    char text[KNIT_EVENT_ID_BYTES + 1];
};

static int place_is_right(const struct event *event, size_t len, int place)
{
    static const struct expected written = {0, {KNIT_EVENT_ID_BYTES}}, refused = {KNIT_ID_ROOM, {0}};
    int fits = len >= KNIT_EVENT_ID_BYTES;
    uint8_t *out = lay_out(len, place);
    struct lent_answer lent;
    uint64_t number;
    fill_answer(&lent);
    number = knit_event_id(event->lesson, event->digest, out, len, lent.words);
    return answer_is_right(&lent, number, fits ? &written : &refused)
        && bytes_are_right(out, place, event->text, fits ? KNIT_EVENT_ID_BYTES : 0);
}

static void check(const struct event *event, size_t len)
{
    static char name[64];
    int place = 0;
    sprintf(name, "%s in %lu bytes", event->text, (unsigned long)len);
    start_case(name);
    while (place < OUT_PLACES && place_is_right(event, len, place))
        place++;
    end_case(place == OUT_PLACES);
}

static void check_lengths(const struct event *event)
{
    size_t len;
    for (len = 0; len <= LAST_LENGTH; len++)
        check(event, len);
    check(event, out_arena.len - 2 * MIDDLE);
}

/* ---- Identifiers written out by hand ---- */

static const struct event events[] = {
    {0, 0, "00000000-0000000000000000"},
    {1, 1, "00000001-0000000000000001"},
    {9, 10, "00000009-000000000000000a"},
    {15, 16, "0000000f-0000000000000010"},
    {UINT32_MAX, UINT64_MAX, "ffffffff-ffffffffffffffff"},
    {0, UINT64_MAX, "00000000-ffffffffffffffff"},
    {UINT32_MAX, 0, "ffffffff-0000000000000000"},
    {2147483647, 9223372036854775807u, "7fffffff-7fffffffffffffff"},
    {2147483648u, 9223372036854775808u, "80000000-8000000000000000"},
    {65536, 4294967296u, "00010000-0000000100000000"},
    {65535, 4294967295u, "0000ffff-00000000ffffffff"},
    {0x01234567, 0x89abcdef01234567u, "01234567-89abcdef01234567"},
    {0xfedcba98u, 0x76543210fedcba98u, "fedcba98-76543210fedcba98"},
    {4711, 0x6ffa4144d88d4a53u, "00001267-6ffa4144d88d4a53"}, /* the digest of the run of document 01's image */
};

/* ---- Every digit at every place, and numbers in no order, by the C library's own formatting ---- */

static void check_formatted(uint32_t lesson, uint64_t digest)
{
    struct event event;
    event.lesson = lesson;
    event.digest = digest;
    sprintf(event.text, "%08lx-%08lx%08lx", (unsigned long)lesson, (unsigned long)(digest >> 32),
        (unsigned long)(digest & UINT32_MAX));
    check(&event, KNIT_EVENT_ID_BYTES - 1);
    check(&event, KNIT_EVENT_ID_BYTES);
    check(&event, KNIT_EVENT_ID_BYTES + 1);
}

static void run_formatted(void)
{
    uint64_t word = 1;
    int digit, place, i;
    for (digit = 0; digit < 16; digit++)
        for (place = 0; place < 16; place++)
            check_formatted((uint32_t)digit << 4 * (place % 8), (uint64_t)digit << 4 * place);
    for (i = 0; i < 500; i++) {
        word = word * 6364136223846793005u + 1442695040888963407u;
        check_formatted((uint32_t)(word >> 32), word ^ word >> 29);
    }
}

int main(void)
{
    size_t i;
    start_tests();
    make_arena(&out_arena, 4 * MIDDLE);
    for (i = 0; i < COUNT(events); i++)
        check_lengths(&events[i]);
    run_formatted();
    return end_tests("knit_event_id");
}
