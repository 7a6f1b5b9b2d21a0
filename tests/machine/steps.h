/* Random sizes of machines, and steps. */
#ifndef STEPS_H
#define STEPS_H

#include "dice.h"
#include "machine.h"

/* The smaller, the denser the conflicts. */
enum size { TINY, SMALL, MIDDLE, LARGE, SIZES };

struct dimensions draw_dimensions(struct dice *dice, enum size size);

/* Mostly small, and at times of any size. */
struct dimensions draw_any_dimensions(struct dice *dice);

uint32_t draw_value(struct dice *dice);

enum { HOT_WORDS = 3 };

/* Which steps a trace is made of: long or short transactions, many or few plain
 * accesses, and a few words that most of them use. */
struct mood {
    struct dimensions dimensions;
    uint32_t hot[HOT_WORDS];
    uint32_t weights[INSTRUCTIONS];
    uint32_t total;
};

void draw_mood(struct mood *mood, struct dice *dice, struct dimensions dimensions);

struct drawn_step {
    uint32_t step;
    uint32_t core;
    uint32_t word;
    uint32_t value;
};

struct drawn_step draw_step(const struct mood *mood, struct dice *dice);

#endif
