/* Machines of every size, and of none. */
#include "compare.h"
#include "logs.h"
#include "suites.h"

enum { RECORDS = 20 };

static void compare_log(struct dice *dice, struct dimensions dimensions)
{
    static struct job job;
    draw_job(&job, dice, dimensions);
    draw_log(&job, dice, RECORDS, SELDOM_ODD);
    compare(&job);
}

static void every_size(uint64_t seed)
{
    struct dice dice = {seed};
    for (uint32_t p = 1; p <= MAX_PROCESSORS; p++)
        for (uint32_t lines = 1; lines <= MAX_LINES; lines *= 2)
            for (uint32_t entries = 1; entries <= MAX_ENTRIES; entries *= 2)
                compare_log(&dice, (struct dimensions){p, 1u << roll_below(&dice, 9), lines,
                                                       entries});
    for (uint32_t entries = 1; entries <= MAX_ENTRIES; entries++)
        compare_log(&dice, (struct dimensions){3, MAX_WORDS, 2, entries});
    for (uint32_t words = 1; words <= MAX_WORDS; words++)
        compare_log(&dice, (struct dimensions){2, words, 8, 4});
}

static uint64_t draw_dimension(struct dice *dice, uint64_t right)
{
    static const uint64_t others[] = {0, 1, 2, 3, 5, 8, 9, 16, 48, 63, 64, 65, 128, 255, 256, 257,
                                      65536, 4294967295, 4294967296, 4294967300,
                                      9223372036854775808u, UINT64_MAX};
    if (roll_one_in(dice, 4))
        return others[roll_below(dice, sizeof others / sizeof *others)];
    return right;
}

/* The text is a log, or no text at all: it is not looked at. */
static void refused_sizes(uint64_t seed)
{
    static struct job job;
    struct dice dice = {seed};
    for (int i = 0; i < 4000; i++) {
        draw_job(&job, &dice, draw_any_dimensions(&dice));
        draw_log(&job, &dice, roll_below(&dice, 4), SELDOM_ODD);
        for (int d = 0; d < DIMENSIONS; d++)
            job.dimensions[d] = draw_dimension(&dice, job.dimensions[d]);
        if (roll_one_in(&dice, 8))
            job.length = 0;
        compare(&job);
    }
}

void test_sizes(void)
{
    compared_test("machines of every size", 301, every_size);
    compared_test("sizes that are refused, and some that are not", 302, refused_sizes);
}
