#include "comparison.h"

#include <inttypes.h>
#include <setjmp.h>
#include <stdio.h>

#include "check.h"
#include "limits.h"
#include "shrink.h"
#include "tell.h"

struct amount {
    size_t jobs;
    size_t parts;
};

static void (*running)(uint64_t); /* the test that runs, and its seed */
static uint64_t running_seed;
static jmp_buf end_of_test;
static struct amount all;
static struct amount here; /* of the test that runs */
static size_t differences;
static bool told;

static void tell_difference(const struct job *job)
{
    struct job shortest = *job;
    shrink(&shortest, differ);
    differ(&shortest);
    printf("  seed %" PRIu64 ", %s %zu differs; the shortest that still does:\n",
           running_seed, terms.job, here.jobs);
    tell_job(&shortest);
    printf("  the proved %s:\n", terms.proved);
    tell_reply(&shortest, &ours);
    printf("  the second program:\n");
    tell_reply(&shortest, &twin);
}

static void meet_difference(const struct job *job)
{
    differences++;
    if (!told)
        tell_difference(job);
    told = true;
    limits_differ();
}

void end_job(const struct job *job, size_t parts, bool differs)
{
    here.jobs++;
    here.parts += parts;
    if (differs)
        meet_difference(job);
    if (limits_reached())
        longjmp(end_of_test, 1);
}

static void tell_amount(const struct amount *amount)
{
    printf("%zu %ss, %zu %ss\n", amount->jobs, terms.job, amount->parts, terms.part);
}

static void run_body(void)
{
    here = (struct amount){0, 0};
    differences = 0;
    if (setjmp(end_of_test) == 0)
        running(running_seed);
    expect(differences == 0, "%zu of %zu %ss differ", differences, here.jobs, terms.job);
    printf("  seed %" PRIu64 ": ", running_seed);
    tell_amount(&here);
    all.jobs += here.jobs;
    all.parts += here.parts;
}

void compared_test(const char *name, uint64_t number, void (*body)(uint64_t seed))
{
    if (limits_reached())
        return;
    running = body;
    running_seed = test_seed(number);
    test(name, run_body);
}

size_t jobs_compared(void)
{
    return all.jobs;
}

void tell_compared(void)
{
    printf("compared with the second program: ");
    tell_amount(&all);
}
