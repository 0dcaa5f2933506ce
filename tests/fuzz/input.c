#include "input.h"

#include "corpus.h"
#include "generate.h"
#include "mutate.h"
#include "random.h"

#define LONGEST_OUT 60

static void draw_image(struct image *image)
{
    static struct image other;
    uint64_t way = below(100);
    if (way < 3) {
        make_noise(image);
    } else if (way < 6) {
        make_headed_noise(image);
    } else if (way < 55 || !draw_kept(image)) {
        make_program(image);
        if (one_in(3)) {
            make_program(&other);
            mutate(image, &other);
        }
    } else {
        draw_kept(&other);
        mutate(image, &other);
    }
}

void draw_input(struct input *input)
{
    draw_image(&input->image);
    input->fault = image_fault(&input->image);
    input->limits = any_limits(&input->image, input->fault.number == 0);
    input->terms = any_terms(&input->image, input->fault.number == 0);
    input->lesson = (uint32_t)any_number();
    input->digest = any_number();
    input->out_len = (size_t)below(LONGEST_OUT + 1);
}

void tell_input(const struct input *input, FILE *to)
{
    const struct limits *limits = &input->limits;
    const struct terms *terms = &input->terms;
    size_t i;
    fprintf(to, "limits: registers %u, functions %u, call depth %u, instructions %lu, fuel %llu\n", limits->registers,
        limits->functions, limits->call_depth, (unsigned long)limits->instrs, (unsigned long long)limits->fuel);
    fprintf(to, "run: fuel %llu, depth %u, words for frames %lu, for registers %lu\n", (unsigned long long)terms->fuel,
        terms->depth, (unsigned long)terms->frames_len, (unsigned long)terms->registers_len);
    fprintf(to, "identifier: lesson %lu, digest %llx, %lu bytes\n", (unsigned long)input->lesson,
        (unsigned long long)input->digest, (unsigned long)input->out_len);
    fprintf(to, "image, %lu bytes: ", (unsigned long)input->image.len);
    for (i = 0; i < input->image.len; i++)
        fprintf(to, "%02x", input->image.bytes[i]);
    fprintf(to, "\n");
}
