/* Demand 3, soundness and the bounds over random traces of many sizes. */
#include <inttypes.h>
#include <stdio.h>

#include "check.h"
#include "generate.h"
#include "serial.h"
#include "suites.h"

static struct tally tally;

/* Prints what a failing trace comes down to. */
static void report(struct trace *trace, const struct scrutiny *scrutiny, uint64_t seed)
{
    struct verdict verdict = serial_minimise(trace, scrutiny);
    printf("  seed %" PRIu64 ": %s, at the last of %zu steps\n", seed,
           verdict.complaint != NULL ? verdict.complaint : "no complaint again",
           trace->length);
    trace_print(trace);
    expect(false, "seed %" PRIu64, seed);
}

static void check_seeds(uint64_t first, uint64_t count, enum size_class size_class,
                        size_t stride)
{
    static struct trace trace;
    struct scrutiny scrutiny = {machine_step, stride, true};
    printf("  seeds %" PRIu64 " to %" PRIu64 "\n", first, first + count - 1);
    for (uint64_t seed = first; seed < first + count; seed++) {
        generate(&trace, seed, size_class);
        if (serial_check(&trace, &scrutiny, &tally).complaint != NULL) {
            report(&trace, &scrutiny, seed);
            return;
        }
    }
}

static void small_sizes(void)
{
    check_seeds(1000000, 5000, SMALL, 1);
}

static void middle_sizes(void)
{
    check_seeds(2000000, 2000, MIDDLE, 4);
}

static void large_sizes(void)
{
    check_seeds(3000000, 800, LARGE, 64);
}

static void each_step_of_large(void)
{
    check_seeds(4000000, 8, LARGE, 1);
}

static void expect_answered(uint32_t instruction, uint32_t kind)
{
    expect(tally.answers[instruction][kind] > 0,
           "instruction %" PRIu32 " gave answer %" PRIu32, instruction, kind);
}

static void reach(void)
{
    static const struct { uint32_t instruction, kind; } due[] = {
        {LOAD, ANSWER_VALUE}, {STORE, ANSWER_DONE}, {LT, ANSWER_VALUE},
        {LT, ANSWER_ABORTED}, {LTX, ANSWER_VALUE}, {LTX, ANSWER_ABORTED},
        {ST, ANSWER_DONE}, {ST, ANSWER_ABORTED}, {COMMIT, ANSWER_SUCCESS},
        {COMMIT, ANSWER_FAILURE}, {ABORT, ANSWER_DONE}, {VALIDATE, ANSWER_TRUE},
        {VALIDATE, ANSWER_FALSE}, {INTERRUPT, ANSWER_DONE}};
    printf("  %" PRIu64 " steps; with 0, 1, 2, 3 WRITE: %" PRIu64 " %" PRIu64
           " %" PRIu64 " %" PRIu64 "; BUSY %" PRIu64 "; no slot %" PRIu64 "\n",
           tally.steps, tally.writes[0], tally.writes[1], tally.writes[2],
           tally.writes[3], tally.busy, tally.full);
    for (size_t i = 0; i < sizeof due / sizeof due[0]; i++)
        expect_answered(due[i].instruction, due[i].kind);
    for (int i = 0; i < 4; i++)
        expect(tally.writes[i] > 0, "steps with %d WRITE", i);
    expect(tally.busy > 0 && tally.full > 0, "BUSY, and a search that found no slot");
}

void serial_suite(void)
{
    test("demand 3: small machines, every state", small_sizes);
    test("demand 3: middle machines", middle_sizes);
    test("demand 3: machines up to the largest", large_sizes);
    test("demand 3: a few large machines, every state", each_step_of_large);
    test("demand 3: the traces reach every answer and 3 WRITE", reach);
}
