/* Runs over lent columns. */
#include <string.h>

#include "compare.h"
#include "draw.h"
#include "pack.h"
#include "suites.h"

/* A run from the job's state, of steps of any mood. */
static void compare_run(struct job *job, struct dice *dice, size_t length,
                        struct reply *reply)
{
    struct mood mood;
    draw_mood(&mood, dice, unpack_dimensions(job->state));
    draw_run(job, dice, &mood, length);
    compare(job, reply);
}

static void run_from_fresh(struct dice *dice, struct dimensions dimensions)
{
    struct job job = {0};
    struct reply reply;
    draw_fresh(&job, dice, dimensions);
    compare_run(&job, dice, PLACES, &reply);
}

static void runs_from_fresh(uint64_t seed)
{
    struct dice dice = {seed};
    for (int i = 0; i < 8000; i++)
        run_from_fresh(&dice, draw_any_dimensions(&dice));
}

static void runs_of_every_size(uint64_t seed)
{
    struct dice dice = {seed};
    for (uint32_t p = 1; p <= MAX_PROCESSORS; p++)
        for (uint32_t lines = 1; lines <= MAX_LINES; lines *= 2)
            for (uint32_t entries = 1; entries <= MAX_ENTRIES; entries *= 2) {
                uint32_t words = 1u << roll_below(&dice, 9);
                run_from_fresh(&dice, (struct dimensions){p, words, lines, entries});
            }
    for (uint32_t entries = 1; entries <= MAX_ENTRIES; entries++)
        run_from_fresh(&dice, (struct dimensions){3, MAX_WORDS, 2, entries});
    for (uint32_t words = 1; words <= MAX_WORDS; words++)
        run_from_fresh(&dice, (struct dimensions){2, words, 8, 4});
}

/* No run starts from a state of the second program: each is the one that the proved
 * machine handed back last. */
static void long_trace(struct dice *dice, struct dimensions dimensions, int runs)
{
    struct job job = {
        .kind = JOB_MAKE,
        .dimensions = {dimensions.processors, dimensions.words, dimensions.lines,
                       dimensions.entries},
        .memory_length = dimensions.words};
    struct reply reply;
    for (uint32_t w = 0; w < dimensions.words; w++)
        job.memory[w] = draw_value(dice);
    compare(&job, &reply);
    for (int i = 0; i < runs; i++) {
        memcpy(job.state, reply.state, sizeof job.state);
        compare_run(&job, dice, PLACES, &reply);
    }
}

static void long_traces(uint64_t seed)
{
    struct dice dice = {seed};
    for (int i = 0; i < 100; i++)
        long_trace(&dice, draw_any_dimensions(&dice), 50);
    for (int i = 0; i < 4; i++)
        long_trace(&dice, (struct dimensions){8, 256, 1u << 2 * i, 64}, 50);
}

static void runs_of_every_length(uint64_t seed)
{
    struct dice dice = {seed};
    for (int i = 0; i < 4 * (PLACES + 1); i++) {
        struct job job = {0};
        struct reply reply;
        draw_reached(&job, &dice, draw_any_dimensions(&dice));
        compare_run(&job, &dice, i % (PLACES + 1), &reply);
    }
}

static void empty_runs(uint64_t seed)
{
    struct dice dice = {seed};
    for (int i = 0; i < 200; i++) {
        struct job job = {0};
        struct reply reply;
        draw_reached(&job, &dice, draw_any_dimensions(&dice));
        draw_use(&job, &dice, JOB_RUN);
        for (int column = 0; column < COLUMNS; column++)
            job.lengths[column] = 0;
        if (roll_one_in(&dice, 3))
            job.state[STIRNFELD_TACTIVE] = 2; /* REFUSED_STATE */
        if (roll_one_in(&dice, 3))
            job.lengths[roll_below(&dice, COLUMNS)] = 1; /* REFUSED_COLUMNS */
        compare(&job, &reply);
    }
}

static void spoil_step(struct job *job, struct dice *dice, uint32_t at)
{
    struct read_columns *read = &job->read;
    struct dimensions d = unpack_dimensions(job->state);
    switch (roll_below(dice, 3)) {
    case 0: read->steps[at] = roll_from(dice, INSTRUCTIONS, 255); break;
    case 1: read->cores[at] = roll_from(dice, d.processors, 255); break;
    default:
        read->words[at] = roll_from(dice, d.words, UINT32_MAX);
        break;
    }
}

static void runs_refused_midway(uint64_t seed)
{
    struct dice dice = {seed};
    for (int i = 0; i < 600; i++) {
        struct job job = {0};
        struct mood mood;
        struct reply reply;
        struct dimensions dimensions = draw_any_dimensions(&dice);
        draw_reached(&job, &dice, dimensions);
        draw_mood(&mood, &dice, dimensions);
        draw_run(&job, &dice, &mood, roll_from(&dice, 1, PLACES));
        for (uint32_t wrong = roll_from(&dice, 1, 3); wrong > 0; wrong--)
            spoil_step(&job, &dice, roll_below(&dice, PLACES));
        compare(&job, &reply);
    }
}

/* Some with a state that is not sound, which comes first, and some with a wrong
 * step, which comes after. */
static void unequal_columns(uint64_t seed)
{
    struct dice dice = {seed};
    for (int i = 0; i < 100 * COLUMNS; i++) {
        struct job job = {0};
        struct reply reply;
        draw_reached(&job, &dice, draw_any_dimensions(&dice));
        draw_use(&job, &dice, JOB_RUN);
        uint64_t *length = &job.lengths[i % COLUMNS];
        *length = roll_one_in(&dice, 2) ? *length + 1 : roll_below(&dice, PLACES + 1);
        if (roll_one_in(&dice, 4))
            job.state[STIRNFELD_TACTIVE] = 3;
        if (roll_one_in(&dice, 4))
            spoil_step(&job, &dice, 0);
        compare(&job, &reply);
    }
}

void test_running(void)
{
    compared_test("runs from fresh machines", 301, runs_from_fresh);
    compared_test("runs of machines of every size", 302, runs_of_every_size);
    compared_test("long traces, each state handed in again", 303, long_traces);
    compared_test("runs of every length from states reached", 304, runs_of_every_length);
    compared_test("empty runs", 305, empty_runs);
    compared_test("runs refused in the middle", 306, runs_refused_midway);
    compared_test("columns that differ in length", 307, unequal_columns);
}
