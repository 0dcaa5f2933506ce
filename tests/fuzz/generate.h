/*
 * Images made from nothing: noise, noise after a right header, and programs.
 */
#ifndef FUZZ_GENERATE_H
#define FUZZ_GENERATE_H

#include "image.h"

void make_noise(struct image *image);
void make_headed_noise(struct image *image);

/* A well-formed image. Most of its programs run for a while; which rules they break is left to chance. */
void make_program(struct image *image);

/* Where an instruction stands, as far as its operands depend on it. */
struct surroundings {
    uint32_t functions, number; /* how many functions there are, and which one it is in */
    uint16_t regs;
    uint32_t place, count; /* the instruction's place in its function, and that function's length */
    int loose;             /* operands by chance, and not of the kind that the instruction takes */
};

/* An instruction whose fields are allowed, with operands that mostly exist. */
struct instr any_instr(const struct surroundings *at);

uint16_t any_regs(void);
uint16_t any_entry(uint32_t functions);

#endif
