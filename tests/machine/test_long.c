/* Runs of up to 65,536 mixed steps, the most that one takes. */
#include "check.h"
#include "draw.h"
#include "long.h"
#include "suites.h"

static struct long_run run;

/* From time to time the mood changes, so that a run has stretches of many kinds. */
static void draw_long(struct dice *dice, struct dimensions dimensions, size_t length)
{
    struct mood mood;
    size_t left = 0;
    run.dimensions = dimensions;
    run.length = length;
    for (uint32_t w = 0; w < dimensions.words; w++)
        run.memory[w] = draw_value(dice);
    for (size_t i = 0; i < length; i++) {
        if (left-- == 0) {
            draw_mood(&mood, dice, dimensions);
            left = roll_from(dice, 500, 8000);
        }
        struct drawn_step s = draw_step(&mood, dice);
        run.steps[i] = (uint8_t)s.step;
        run.cores[i] = (uint8_t)s.core;
        run.words[i] = s.word;
        run.values[i] = s.value;
    }
}

static struct dimensions draw_size(struct dice *dice, int i)
{
    static const struct dimensions fixed[] = {{4, 16, 4, 4}, {8, 256, 64, 64}};
    return i % 6 < SIZES ? draw_dimensions(dice, i % 6) : fixed[i % 6 - SIZES];
}

static void longest_runs(uint64_t seed)
{
    struct dice dice = {seed};
    for (int i = 0; i < 24; i++) {
        draw_long(&dice, draw_size(&dice, i), STIRNFELD_STEPS);
        expect(compare_long(&run) == NOT_REFUSED, "a whole run is taken");
    }
}

static void long_runs(uint64_t seed)
{
    struct dice dice = {seed};
    for (int i = 0; i < 12; i++) {
        draw_long(&dice, draw_size(&dice, i), roll_from(&dice, PLACES, STIRNFELD_STEPS));
        expect(compare_long(&run) == NOT_REFUSED, "a whole run is taken");
    }
}

/* A step among the last hundred is none, or has no such core or word. */
static void refused_late(uint64_t seed)
{
    struct dice dice = {seed};
    for (int i = 0; i < 12; i++) {
        struct dimensions d = draw_size(&dice, i);
        draw_long(&dice, d, STIRNFELD_STEPS);
        size_t at = STIRNFELD_STEPS - roll_from(&dice, 1, 100);
        run.steps[at] = LT;
        enum refusal wanted = REFUSED_STEP + i % 3;
        switch (wanted) {
        case REFUSED_STEP: run.steps[at] = roll_from(&dice, INSTRUCTIONS, 255); break;
        case REFUSED_CORE: run.cores[at] = roll_from(&dice, d.processors, 255); break;
        default: run.words[at] = roll_from(&dice, d.words, UINT32_MAX); break;
        }
        expect(compare_long(&run) == wanted, "the run is refused late with %d", wanted);
    }
}

static void too_long(uint64_t seed)
{
    struct dice dice = {seed};
    for (int i = 0; i < 6; i++) {
        draw_long(&dice, draw_size(&dice, i), LONGEST);
        expect(compare_long(&run) == REFUSED_COLUMNS, "65,537 steps are refused");
    }
}

void test_long(void)
{
    compared_test("runs of 65,536 steps", 501, longest_runs);
    compared_test("long runs of any length", 502, long_runs);
    compared_test("long runs refused near their end", 503, refused_late);
    compared_test("runs of a step too many", 504, too_long);
}
