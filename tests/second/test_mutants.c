/* The check of demand 3 catches each of three wrong machines, by what they
 * answer and settle alone: soundness is not looked at here. */
#include <inttypes.h>
#include <stdio.h>

#include "check.h"
#include "generate.h"
#include "serial.h"
#include "suites.h"

enum { FIRST_SEED = 5000000, SEEDS = 200 };

step_function step_lost_backup;
step_function step_silent_write;
step_function step_unsaved_tentative;

/* The shortest of what the first few catching seeds come down to. */
static void expect_caught(step_function *step)
{
    static struct trace trace;
    static struct trace shortest;
    struct scrutiny scrutiny = {step, 1, false};
    int caught = 0;
    for (uint64_t seed = FIRST_SEED; seed < FIRST_SEED + SEEDS && caught < 5; seed++) {
        struct tally unused = {0};
        generate(&trace, seed, SMALL);
        if (serial_check(&trace, &scrutiny, &unused).complaint == NULL)
            continue;
        struct verdict verdict = serial_minimise(&trace, &scrutiny);
        if (caught == 0 || trace.length < shortest.length) {
            shortest = trace;
            printf("  caught by seed %" PRIu64 ": %s\n", seed, verdict.complaint);
        }
        caught++;
    }
    expect(caught > 0, "a trace catches the wrong machine");
    if (caught > 0)
        trace_print(&shortest);
}

static void lost_backup(void)
{
    expect_caught(step_lost_backup);
}

static void silent_write(void)
{
    expect_caught(step_silent_write);
}

static void unsaved_tentative(void)
{
    expect_caught(step_unsaved_tentative);
}

static void right_machine(void)
{
    static struct trace trace;
    struct scrutiny scrutiny = {machine_step, 1, false};
    for (uint64_t seed = FIRST_SEED; seed < FIRST_SEED + SEEDS; seed++) {
        struct tally unused = {0};
        generate(&trace, seed, SMALL);
        expect(serial_check(&trace, &scrutiny, &unused).complaint == NULL,
               "seed %" PRIu64 " draws no complaint", seed);
    }
}

void mutants_suite(void)
{
    test("wrong machine caught: rollback drops a dirty backup", lost_backup);
    test("wrong machine caught: WRITE without snoop", silent_write);
    test("wrong machine caught: a dirty tentative entry with no copy kept",
         unsaved_tentative);
    test("the right machine passes the same traces", right_machine);
}
