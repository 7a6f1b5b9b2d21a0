/* A run over columns: refusals 9, 10, then those of its steps. */
#include <stdlib.h>
#include <string.h>

#include "check.h"
#include "run.h"
#include "scene.h"
#include "suites.h"

enum { ROOM = RUN_LIMIT + 1, MARK = 0xa5 };

static struct machine machine;
static struct machine before;
static uint32_t steps[ROOM];
static uint32_t cores[ROOM];
static uint32_t words[ROOM];
static uint32_t values[ROOM];
static struct answer answers[ROOM];

static struct columns lend(size_t length)
{
    return (struct columns){steps, cores, words, values, answers,
                            length, length, length, length, length};
}

/* LOADs of word 0 by P0, and marked places for the answers. */
static void begin(void)
{
    bench_make(&machine, 2, 2);
    before = machine;
    memset(steps, 0, sizeof steps);
    memset(cores, 0, sizeof cores);
    memset(words, 0, sizeof words);
    memset(values, 0, sizeof values);
    memset(answers, MARK, sizeof answers);
}

static bool kept_from(size_t place)
{
    const unsigned char *bytes = (const unsigned char *)(answers + place);
    for (size_t i = 0; i < (ROOM - place) * sizeof *answers; i++)
        if (bytes[i] != MARK)
            return false;
    return true;
}

static void expect_run(const struct columns *columns, enum refusal refusal, size_t taken)
{
    struct run run = machine_run(&machine, columns);
    expect(run.refusal == refusal && run.taken == taken,
           "due %d after %zu, got %d after %zu", (int)refusal, taken,
           (int)run.refusal, run.taken);
    expect(kept_from(taken), "later places keep their contents");
    if (taken == 0)
        expect(memcmp(&machine, &before, sizeof machine) == 0, "the state stays");
}

static void empty_run(void)
{
    begin();
    struct columns columns = lend(0);
    expect_run(&columns, NOT_REFUSED, 0);
}

static void lengths_differ(void)
{
    for (int which = 0; which < 5; which++)
        for (int change = -1; change <= 1; change += 2) {
            begin();
            struct columns columns = lend(3);
            size_t *lengths[] = {&columns.steps_length, &columns.cores_length,
                                 &columns.words_length, &columns.values_length,
                                 &columns.answers_length};
            *lengths[which] += (size_t)change;
            expect_run(&columns, REFUSED_COLUMNS, 0);
        }
}

static void limit(void)
{
    begin();
    struct columns columns = lend(RUN_LIMIT);
    expect_run(&columns, NOT_REFUSED, RUN_LIMIT);
    begin();
    columns = lend(RUN_LIMIT + 1);
    expect_run(&columns, REFUSED_COLUMNS, 0);
}

static void unsound(void)
{
    begin();
    machine.processors[0].tactive = 2;
    before = machine;
    struct columns columns = lend(3);
    steps[0] = 9;
    expect_run(&columns, REFUSED_STATE, 0);
    columns.cores_length = 2;
    expect_run(&columns, REFUSED_STATE, 0);
    columns = lend(0);
    expect_run(&columns, REFUSED_STATE, 0);
}

static void bad_dimensions(void)
{
    begin();
    machine.dimensions.processors = 9;
    before = machine;
    struct columns columns = lend(1);
    expect_run(&columns, REFUSED_STATE, 0);
}

static void columns_before_steps(void)
{
    begin();
    steps[0] = 9;
    struct columns columns = lend(3);
    columns.values_length = 4;
    expect_run(&columns, REFUSED_COLUMNS, 0);
}

static void stops_at_refusal(void)
{
    for (size_t place = 0; place < 4; place++) {
        begin();
        steps[place] = 9;
        cores[place + 1] = 2;
        struct columns columns = lend(5);
        expect_run(&columns, REFUSED_STEP, place);
        begin();
        cores[place] = 2;
        columns = lend(5);
        expect_run(&columns, REFUSED_CORE, place);
        begin();
        words[place] = 4;
        columns = lend(5);
        expect_run(&columns, REFUSED_WORD, place);
    }
}

static void same_as_steps(void)
{
    begin();
    srand(1);
    for (size_t i = 0; i < 4096; i++) {
        steps[i] = (uint32_t)rand() % INSTRUCTIONS;
        cores[i] = (uint32_t)rand() % 2;
        words[i] = (uint32_t)rand() % 4;
        values[i] = (uint32_t)rand();
    }
    steps[4000] = 9;
    struct columns columns = lend(4096);
    expect_run(&columns, REFUSED_STEP, 4000);
    for (size_t i = 0; i < 4000; i++) {
        struct answer due = machine_step(&before, steps[i], cores[i], words[i], values[i]);
        expect(memcmp(&due, &answers[i], sizeof due) == 0, "answer %zu", i);
    }
    expect(memcmp(&machine, &before, sizeof machine) == 0, "the state the steps reached");
}

void run_suite(void)
{
    test("run: an empty run takes none", empty_run);
    test("run: refusal 10 when lengths differ", lengths_differ);
    test("run: 65,536 steps pass, one more is 10", limit);
    test("run: refusal 9 comes first", unsound);
    test("run: dimensions out of range are 9", bad_dimensions);
    test("run: refusal 10 before those of steps", columns_before_steps);
    test("run: stops before the first refused step", stops_at_refusal);
    test("run: the same as its steps one by one", same_as_steps);
}
