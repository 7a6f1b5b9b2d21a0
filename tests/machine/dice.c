#include "dice.h"

/* splitmix64 */
uint64_t roll(struct dice *dice)
{
    uint64_t z = dice->seed += 0x9e3779b97f4a7c15u;
    z = (z ^ (z >> 30)) * 0xbf58476d1ce4e5b9u;
    z = (z ^ (z >> 27)) * 0x94d049bb133111ebu;
    return z ^ (z >> 31);
}

uint32_t roll_below(struct dice *dice, uint32_t bound)
{
    return (uint32_t)(roll(dice) % bound);
}

uint32_t roll_from(struct dice *dice, uint32_t least, uint32_t most)
{
    return least + roll_below(dice, most - least + 1);
}

bool roll_one_in(struct dice *dice, uint32_t chances)
{
    return roll_below(dice, chances) == 0;
}
