#include <string.h>

#include "check.h"
#include "lent.h"
#include "suites.h"

static void expect_whole_refusal(uint8_t number, const char *what)
{
    size_t taken = 99;
    remember();
    uint8_t refusal = run(&taken);
    expect(refusal == number, "%s is %u, and not %u", what, number, refusal);
    expect(taken == 0, "%s: no step is taken", what);
    expect(unchanged(), "%s: nothing is written", what);
}

static void is_9(const char *what)
{
    expect_whole_refusal(9, what);
}

/* The columns differ in length, so that 9 is seen to come before 10. */
static void unsound(void)
{
    make_bench();
    set_columns(1);
    set_step(0, STIRNFELD_ST, 0, 1, 5);
    for_each_unsound(is_9);
    asked.columns[3] = 2;
    for_each_unsound(is_9);
}

static void columns_of_another_length(void)
{
    make_bench();
    for (int k = 0; k < COLUMNS; k++)
        for (size_t length = 0; length <= 2; length += 2) {
            set_columns(1);
            set_step(0, STIRNFELD_ST, 0, 1, 5);
            asked.columns[k] = length;
            expect_whole_refusal(10, "a column of another length");
        }
}

static void too_long(void)
{
    make_bench();
    memset(lent.ops, STIRNFELD_LOAD, sizeof lent.ops);
    memset(lent.cores, 1, sizeof lent.cores);
    memset(lent.used_words, 0, sizeof lent.used_words);
    set_columns(65537);
    expect_whole_refusal(10, "65,537 steps");
    set_columns(65536);
    size_t taken;
    expect(run(&taken) == 0 && taken == 65536, "65,536 steps pass");
    expect(lent.results[65535] == 10 && lent.results[65536] == NOISE_32,
           "the last place is written, and none past it");
}

static void no_steps(void)
{
    make_bench();
    set_columns(0);
    expect_whole_refusal(0, "an empty run");
}

static uint8_t run_two_and(size_t length, uint8_t op, uint8_t core, uint32_t word, size_t *taken)
{
    make_bench();
    set_columns(length);
    set_step(0, STIRNFELD_ST, 0, 1, 5);
    set_step(1, STIRNFELD_COMMIT, 0, 0, 0);
    set_step(2, op, core, word, 0);
    set_step(3, STIRNFELD_LOAD, 1, 1, 0);
    return run(taken);
}

/* The third of four steps is refused: what is left is what a run of the first two leaves. */
static void stop_at(uint8_t number, uint8_t op, uint8_t core, uint32_t word)
{
    size_t taken;
    uint8_t refusal = run_two_and(4, op, core, word, &taken);
    expect(refusal == number, "the third step is %u, and not %u", number, refusal);
    expect(taken == 2, "two steps are taken, and not %zu", taken);
    remember();
    refusal = run_two_and(2, op, core, word, &taken);
    expect(refusal == 0 && taken == 2, "the first two are taken alone");
    expect(unchanged(), "the state and the columns are what the first two leave");
}

static void refused_steps(void)
{
    stop_at(6, 9, 0, 0);
    stop_at(6, 255, 2, 4);
    stop_at(7, STIRNFELD_COMMIT, 2, 0);
    stop_at(7, STIRNFELD_LOAD, 255, 4);
    stop_at(8, STIRNFELD_LOAD, 1, 4);
    stop_at(8, STIRNFELD_ST, 1, UINT32_MAX);
}

static bool row_is(size_t i, uint8_t answer, uint32_t result, const uint32_t counts[CYCLES])
{
    for (int k = 0; k < CYCLES; k++)
        if (lent.counts[k][i] != counts[k])
            return false;
    return lent.numbers[i] == answer && lent.results[i] == result;
}

/* Document 01's case J, with every count. */
static void case_j(void)
{
    make_bench();
    set_columns(4);
    set_step(0, STIRNFELD_LOAD, 0, 1, 0);
    set_step(1, STIRNFELD_LT, 1, 1, 0);
    set_step(2, STIRNFELD_STORE, 0, 1, 8);
    set_step(3, STIRNFELD_COMMIT, 1, 77, 77);
    size_t taken;
    expect(run(&taken) == 0 && taken == 4, "the steps are taken");
    expect(row_is(0, STIRNFELD_VALUE, 11, (uint32_t[6]){ 1 }), "LOAD is 11, one READ");
    expect(row_is(1, STIRNFELD_VALUE, 11, (uint32_t[6]){ [3] = 1 }), "LT is 11, one T_READ");
    expect(row_is(2, STIRNFELD_DONE, 0, (uint32_t[6]){ [2] = 1 }), "STORE, one WRITE");
    expect(row_is(3, STIRNFELD_FAILURE, 0, (uint32_t[6]){ 0 }), "COMMIT is FAILURE");
    expect(lent.state[STIRNFELD_MEMORY + 1] == 8, "memory has the WRITE");
}

void test_run(void)
{
    test("run: 9, a state that is not sound, before 10", unsound);
    test("run: 10, columns that differ in length", columns_of_another_length);
    test("run: 10, columns that are too long", too_long);
    test("run: an empty run", no_steps);
    test("run: 6, 7, 8, a refused step ends it", refused_steps);
    test("run: case J", case_j);
}
