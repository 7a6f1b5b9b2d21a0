#include "steps.h"

struct dimensions draw_dimensions(struct dice *dice, enum size size)
{
    static const uint32_t processors[SIZES] = {3, 4, 6, MAX_PROCESSORS};
    static const uint32_t words[SIZES] = {3, 8, 32, MAX_WORDS};
    static const uint32_t lines[SIZES] = {1, 2, 4, 6}; /* as powers of two */
    static const uint32_t entries[SIZES] = {3, 6, 16, MAX_ENTRIES};
    return (struct dimensions){
        roll_from(dice, 1, processors[size]), roll_from(dice, 1, words[size]),
        1u << roll_from(dice, 0, lines[size]), roll_from(dice, 1, entries[size])};
}

struct dimensions draw_any_dimensions(struct dice *dice)
{
    static const enum size sizes[] = {TINY, TINY, TINY, TINY, SMALL,
                                      SMALL, SMALL, MIDDLE, MIDDLE, LARGE};
    return draw_dimensions(dice, sizes[roll_below(dice, 10)]);
}

/* Small values meet each other often, which hides a wrong one; large ones fill
 * every bit. */
uint32_t draw_value(struct dice *dice)
{
    uint32_t value = (uint32_t)roll(dice);
    return roll_one_in(dice, 3) ? value % 4 : value;
}

void draw_mood(struct mood *mood, struct dice *dice, struct dimensions dimensions)
{
    static const uint32_t most[INSTRUCTIONS] = {
        [LOAD] = 10, [STORE] = 10, [LT] = 20, [LTX] = 12, [ST] = 20,
        [COMMIT] = 10, [ABORT] = 3, [VALIDATE] = 4, [INTERRUPT] = 2};
    mood->dimensions = dimensions;
    mood->total = 0;
    for (int i = 0; i < INSTRUCTIONS; i++) {
        mood->weights[i] = roll_from(dice, i == LT, most[i]);
        mood->total += mood->weights[i];
    }
    for (int i = 0; i < HOT_WORDS; i++)
        mood->hot[i] = roll_below(dice, dimensions.words);
}

static uint32_t draw_instruction(const struct mood *mood, struct dice *dice)
{
    uint32_t ticket = roll_below(dice, mood->total);
    uint32_t instruction = 0;
    while (ticket >= mood->weights[instruction])
        ticket -= mood->weights[instruction++];
    return instruction;
}

struct drawn_step draw_step(const struct mood *mood, struct dice *dice)
{
    struct drawn_step step = {
        .step = draw_instruction(mood, dice),
        .core = roll_below(dice, mood->dimensions.processors),
        .word = roll_below(dice, mood->dimensions.words)};
    if (!roll_one_in(dice, 4))
        step.word = mood->hot[roll_below(dice, HOT_WORDS)];
    step.value = draw_value(dice);
    return step;
}
