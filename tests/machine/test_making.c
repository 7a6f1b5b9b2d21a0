/* Machines made: of every size, and refused. */
#include "compare.h"
#include "draw.h"
#include "suites.h"

/* What the array holds before is anything, and a refusal keeps it. */
static void draw_memory(struct job *job, struct dice *dice)
{
    for (uint32_t w = 0; w < MAX_WORDS; w++)
        job->memory[w] = draw_value(dice);
    for (size_t place = 0; place < STIRNFELD_STATE; place++)
        job->state[place] = roll(dice);
}

static void make_every_size(uint64_t seed)
{
    struct dice dice = {seed};
    struct job job = {.kind = JOB_MAKE};
    struct reply reply;
    for (uint32_t p = 1; p <= MAX_PROCESSORS; p++)
        for (uint32_t lines = 1; lines <= MAX_LINES; lines *= 2)
            for (uint32_t entries = 1; entries <= MAX_ENTRIES; entries += 7) {
                uint32_t words = roll_one_in(&dice, 8) ? MAX_WORDS
                                                       : roll_from(&dice, 1, MAX_WORDS);
                job.dimensions[0] = p;
                job.dimensions[1] = job.memory_length = words;
                job.dimensions[2] = lines;
                job.dimensions[3] = entries;
                draw_memory(&job, &dice);
                compare(&job, &reply);
            }
}

static uint64_t draw_dimension(struct dice *dice, uint64_t most)
{
    static const uint64_t odd[] = {0, 3, 5, 6, 7, 9, 65, 127, 128, 257, 1ull << 32,
                                   (1ull << 32) + 1, 1ull << 63, UINT64_MAX};
    switch (roll_below(dice, 6)) {
    case 0: return odd[roll_below(dice, sizeof odd / sizeof odd[0])];
    case 1: return most + roll_below(dice, 2);
    case 2: return 1u << roll_below(dice, 7);
    default: return roll_from(dice, 1, 4);
    }
}

static uint64_t draw_length(struct dice *dice, uint64_t words)
{
    uint64_t lengths[] = {words, words, words, words + 1, words - 1, 0, MAX_WORDS};
    uint64_t length = lengths[roll_below(dice, 7)];
    return length < MAX_WORDS ? length : MAX_WORDS;
}

static void make_or_refuse(uint64_t seed)
{
    struct dice dice = {seed};
    struct job job = {.kind = JOB_MAKE};
    struct reply reply;
    for (int i = 0; i < 2000; i++) {
        job.dimensions[0] = draw_dimension(&dice, MAX_PROCESSORS);
        job.dimensions[1] = draw_dimension(&dice, MAX_WORDS);
        job.dimensions[2] = draw_dimension(&dice, MAX_LINES);
        job.dimensions[3] = draw_dimension(&dice, MAX_ENTRIES);
        job.memory_length = draw_length(&dice, job.dimensions[1]);
        draw_memory(&job, &dice);
        compare(&job, &reply);
    }
}

void test_making(void)
{
    compared_test("machines of every size are made", 101, make_every_size);
    compared_test("dimensions and memory are refused in their order", 102, make_or_refuse);
}
