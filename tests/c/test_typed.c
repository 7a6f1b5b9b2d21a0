#include <string.h>

#include "check.h"
#include "lent.h"
#include "suites.h"

/* The bench columns, and what stands in them, as their types. */
static stirnfeld_steps typed_steps(void)
{
    const size_t *n = asked.columns;
    return (stirnfeld_steps){
        .ops = { lent.ops, n[0] }, .cores = { lent.cores, n[1] },
        .used_words = { lent.used_words, n[2] }, .values = { lent.values, n[3] }
    };
}

static stirnfeld_answers typed_answers(void)
{
    const size_t *n = asked.columns;
    return (stirnfeld_answers){
        .numbers = { lent.numbers, n[4] }, .results = { lent.results, n[5] },
        .reads = { lent.counts[0], n[6] }, .rfos = { lent.counts[1], n[7] },
        .writes = { lent.counts[2], n[8] }, .t_reads = { lent.counts[3], n[9] },
        .t_rfos = { lent.counts[4], n[10] }, .busies = { lent.counts[5], n[11] }
    };
}

/* Every answer and every count is met. */
static const uint8_t bench[][4] = {
    { STIRNFELD_LOAD, 0, 1, 0 }, { STIRNFELD_LT, 1, 1, 0 }, { STIRNFELD_STORE, 0, 1, 8 },
    { STIRNFELD_VALIDATE, 1, 0, 0 }, { STIRNFELD_ST, 0, 2, 6 }, { STIRNFELD_LT, 1, 2, 0 },
    { STIRNFELD_COMMIT, 1, 0, 0 }, { STIRNFELD_VALIDATE, 0, 0, 0 },
    { STIRNFELD_COMMIT, 0, 0, 0 }, { STIRNFELD_STORE, 1, 3, 9 }, { STIRNFELD_LTX, 1, 0, 0 },
    { STIRNFELD_INTERRUPT, 1, 0, 0 }, { STIRNFELD_ABORT, 1, 0, 0 }
};
enum { BENCH = sizeof bench / sizeof *bench };

static void set_bench(void)
{
    make_bench();
    set_columns(BENCH);
    for (size_t i = 0; i < BENCH; i++)
        set_step(i, bench[i][0], bench[i][1], bench[i][2], bench[i][3]);
}

/* Whatever the bare run does, this does too. */
static void expect_same_run(const char *what)
{
    size_t taken = 99, typed_taken = 99;
    uint8_t refusal = run(&taken);
    remember();
    size_t columns[COLUMNS];
    memcpy(columns, asked.columns, sizeof columns);
    set_bench();
    memcpy(asked.columns, columns, sizeof columns);
    uint8_t typed = stirnfeld_run_columns(lent.state, typed_steps(), typed_answers(), &typed_taken);
    expect(typed == refusal && typed_taken == taken, "%s: the same end", what);
    expect(unchanged(), "%s: the same state and columns", what);
}

static void a_run(void)
{
    set_bench();
    expect_same_run("a run");
    for (int k = 0; k < COLUMNS; k++) {
        set_bench();
        asked.columns[k] = BENCH - 1;
        expect_same_run("a column of another length");
    }
}

static void steps(void)
{
    set_bench();
    for (size_t i = 0; i < BENCH; i++) {
        stirnfeld_one_step one = { bench[i][0], bench[i][1], bench[i][2], bench[i][3] };
        uint64_t state[STIRNFELD_STATE];
        stirnfeld_answer answer = { 0 };
        memcpy(state, lent.state, sizeof state);
        expect(stirnfeld_step_fields(state, one, &answer) == 0, "step %zu is taken", i);
        step(bench[i][0], bench[i][1], bench[i][2], bench[i][3]);
        const uint32_t *told = lent.told;
        expect(answer.number == told[0] && answer.result == told[1] &&
                   answer.reads == told[2] && answer.rfos == told[3] &&
                   answer.writes == told[4] && answer.t_reads == told[5] &&
                   answer.t_rfos == told[6] && answer.busies == told[7],
               "step %zu: the same answer", i);
        expect(memcmp(state, lent.state, sizeof state) == 0, "step %zu: the same state", i);
    }
}

static void expect_refusal(uint8_t number, stirnfeld_one_step one, const char *what)
{
    stirnfeld_answer noise, answer;
    memset(&noise, NOISE, sizeof noise);
    answer = noise;
    remember();
    uint8_t refusal = stirnfeld_step_fields(lent.state, one, &answer);
    expect(refusal == number, "%s is %u, and not %u", what, number, refusal);
    expect(unchanged() && memcmp(&answer, &noise, sizeof noise) == 0,
           "%s: nothing is written", what);
}

/* As a byte, 256 is 0: a LOAD, or core 0. */
static void no_byte(void)
{
    make_bench();
    expect_refusal(6, (stirnfeld_one_step){ 256, 0, 1, 0 }, "step 256");
    expect_refusal(6, (stirnfeld_one_step){ UINT32_MAX, 256, 4, 0 }, "the largest step");
    expect_refusal(7, (stirnfeld_one_step){ STIRNFELD_LOAD, 256, 1, 0 }, "core 256");
    expect_refusal(7, (stirnfeld_one_step){ STIRNFELD_LOAD, 257, 4, 0 }, "core 257");
    expect_refusal(8, (stirnfeld_one_step){ STIRNFELD_LOAD, 0, 256, 0 }, "word 256");
    expect(stirnfeld_byte(0) == 0 && stirnfeld_byte(254) == 254 && stirnfeld_byte(255) == 255,
           "what a byte holds is itself");
    expect(stirnfeld_byte(256) == 255 && stirnfeld_byte(UINT64_MAX) == 255,
           "what none holds is 255");
}

void test_typed(void)
{
    test("typed columns: the same as bare ones", a_run);
    test("a step by its fields: the same as a bare one", steps);
    test("a step or core of 256 is refused, and not taken for 0", no_byte);
}
