#include "corpus.h"

#include "random.h"

#include <stdio.h>
#include <stdlib.h>
#include <string.h>

#define MOST_KEPT 4096
#define LONGEST_KEPT 4096 /* bytes; what a longer image shows, a short one mostly shows as well, and faster */
#define SEEN_ROOM 65536   /* a power of two */

static struct kept {
    size_t len;
    uint8_t *bytes;
} kept[MOST_KEPT];
static size_t kept_count, seen_count;
static uint64_t seen[SEEN_ROOM]; /* open addressing; 0 is an empty place */

size_t corpus_size(void)
{
    return kept_count;
}

void forget_corpus(void)
{
    while (kept_count > 0)
        free(kept[--kept_count].bytes);
    seen_count = 0;
    memset(seen, 0, sizeof seen);
}

int draw_kept(struct image *image)
{
    const struct kept *drawn = &kept[below(kept_count)];
    if (kept_count == 0)
        return 0;
    image->len = drawn->len;
    memcpy(image->bytes, drawn->bytes, drawn->len);
    return 1;
}

/* ---- What is new ---- */

/* How many bits a number has: answers count as alike if their numbers are about as large. */
static uint64_t class_of(uint64_t number)
{
    uint64_t bits = 0;
    for (; number != 0; number >>= 1)
        bits++;
    return bits;
}

static uint64_t class_of_run(const struct answer *run, size_t frames)
{
    uint64_t class = run->number;
    if (run->number != KNIT_DONE)
        return mixed(class << 16 ^ class_of(run->words[0]) << 8 ^ class_of(frames));
    class = class << 8 ^ run->words[0];                    /* status */
    class = class << 8 ^ run->words[1];                    /* kind */
    class = class << 8 ^ (class_of(run->words[2]) + 3) / 4; /* payload */
    class = class << 8 ^ class_of(run->words[3]);          /* fuel */
    return mixed(class << 8 ^ class_of(frames));
}

static uint64_t class_of_verdict(const struct answer *verdict)
{
    return mixed(verdict->number << 16 ^ class_of(verdict->words[0]) << 8 ^ class_of(verdict->words[1]));
}

static int is_new(uint64_t class)
{
    uint64_t at = class % SEEN_ROOM;
    if (seen_count >= SEEN_ROOM / 2)
        return 0;
    while (seen[at] != 0 && seen[at] != class)
        at = (at + 1) % SEEN_ROOM;
    if (seen[at] == class)
        return 0;
    seen[at] = class;
    seen_count++;
    return 1;
}

/* A place for one more; where none is left, another image gives up its own. */
static struct kept *make_place(void)
{
    struct kept *place = &kept[below(MOST_KEPT)];
    if (kept_count < MOST_KEPT)
        return &kept[kept_count++];
    free(place->bytes);
    return place;
}

static void keep(const struct image *image)
{
    struct kept *place = make_place();
    place->len = image->len;
    place->bytes = malloc(image->len + 1);
    if (place->bytes == NULL) {
        perror("fuzz: malloc");
        exit(2);
    }
    memcpy(place->bytes, image->bytes, image->len);
}

void keep_if_new(const struct image *image, const struct answer *verdict, const struct answer *run, size_t frames)
{
    uint64_t class = class_of_verdict(verdict) + class_of_run(run, frames);
    if (image->len <= LONGEST_KEPT && is_new(class == 0 ? 1 : class))
        keep(image);
}
