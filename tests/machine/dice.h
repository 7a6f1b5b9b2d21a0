/* Random numbers. All that is drawn from a seed is determined by it. */
#ifndef DICE_H
#define DICE_H

#include <stdbool.h>
#include <stdint.h>

struct dice {
    uint64_t seed;
};

uint64_t roll(struct dice *dice);
uint32_t roll_below(struct dice *dice, uint32_t bound);
uint32_t roll_from(struct dice *dice, uint32_t least, uint32_t most);
bool roll_one_in(struct dice *dice, uint32_t chances);

#endif
