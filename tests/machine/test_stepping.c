/* Single steps, and settled values. */
#include <string.h>

#include "compare.h"
#include "draw.h"
#include "suites.h"

static void steps_from_reached(uint64_t seed)
{
    struct dice dice = {seed};
    struct job job = {0};
    struct reply reply;
    for (int i = 0; i < 250; i++) {
        draw_reached(&job, &dice, draw_any_dimensions(&dice));
        for (uint32_t step = LOAD; step < INSTRUCTIONS; step++) {
            draw_use(&job, &dice, JOB_STEP);
            job.step = step;
            compare(&job, &reply);
        }
    }
}

static void steps_in_turn(uint64_t seed)
{
    struct dice dice = {seed};
    struct reply reply;
    for (int trace = 0; trace < 20; trace++) {
        struct job job = {0};
        struct mood mood;
        struct dimensions dimensions = draw_any_dimensions(&dice);
        draw_fresh(&job, &dice, dimensions);
        draw_mood(&mood, &dice, dimensions);
        job.kind = JOB_STEP;
        for (int i = 0; i < 100; i++) {
            struct drawn_step s = draw_step(&mood, &dice);
            job.step = s.step;
            job.core = s.core;
            job.word = s.word;
            job.value = s.value;
            compare(&job, &reply);
            memcpy(job.state, reply.state, sizeof job.state);
        }
    }
}

/* A field that is wrong and one that is not used are drawn apart, so that each
 * refusal is met with and without the ones behind it. */
static void refused_steps(uint64_t seed)
{
    struct dice dice = {seed};
    struct job job = {0};
    struct reply reply;
    for (int i = 0; i < 1000; i++) {
        struct dimensions d = draw_any_dimensions(&dice);
        draw_reached(&job, &dice, d);
        draw_use(&job, &dice, JOB_STEP);
        if (roll_one_in(&dice, 3))
            job.step = roll_one_in(&dice, 2) ? INSTRUCTIONS : roll_from(&dice, 9, 255);
        if (roll_one_in(&dice, 3))
            job.core = roll_one_in(&dice, 2) ? d.processors : roll_from(&dice, d.processors, 255);
        if (roll_one_in(&dice, 2))
            job.word = roll_one_in(&dice, 2) ? d.words : roll_from(&dice, d.words, UINT32_MAX);
        compare(&job, &reply);
    }
}

static void settled_values(uint64_t seed)
{
    struct dice dice = {seed};
    struct job job = {.kind = JOB_SETTLE};
    struct reply reply;
    for (int i = 0; i < 1000; i++) {
        draw_reached(&job, &dice, draw_dimensions(&dice, i % SIZES));
        compare(&job, &reply);
    }
}

void test_stepping(void)
{
    compared_test("every step from states reached", 201, steps_from_reached);
    compared_test("steps in turn, each state handed in again", 202, steps_in_turn);
    compared_test("refused steps", 203, refused_steps);
    compared_test("the settled value of every word", 204, settled_values);
}
