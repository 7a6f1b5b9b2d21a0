#include "long.h"

#include <stdio.h>
#include <string.h>

#include "pack.h"
#include "run.h"

enum { NOISE = 0xA5 };

/* What a run ends with. */
struct end {
    uint64_t state[STIRNFELD_STATE];
    size_t taken;
    uint8_t refusal;
    uint8_t answers[LONGEST];
    uint32_t results[LONGEST];
    uint32_t counts[CYCLES][LONGEST];
};

static struct end ours_end, twin_end;

static void run_ours(const struct long_run *run, size_t length, struct end *end)
{
    memset(end, NOISE, sizeof *end);
    end->refusal =
        stirnfeld_make(run->dimensions.processors, run->dimensions.words,
                       run->dimensions.lines, run->dimensions.entries, run->memory,
                       run->dimensions.words, end->state);
    end->refusal = stirnfeld_run(
        end->state, run->steps, length, run->cores, length, run->words, length,
        run->values, length, end->answers, length, end->results, length,
        end->counts[0], length, end->counts[1], length, end->counts[2], length,
        end->counts[3], length, end->counts[4], length, end->counts[5], length,
        &end->taken);
}

static struct run run_second(const struct long_run *run, size_t length,
                             struct machine *machine, struct answer *answers)
{
    static uint32_t steps[LONGEST], cores[LONGEST];
    for (size_t i = 0; i < length; i++) {
        steps[i] = run->steps[i];
        cores[i] = run->cores[i];
    }
    machine_make(machine, run->dimensions, run->memory, run->dimensions.words);
    return machine_run(machine, &(struct columns){
        steps, cores, run->words, run->values, answers, length, length, length, length,
        length});
}

static void run_twin(const struct long_run *run, size_t length, struct end *end)
{
    static struct machine machine;
    static struct answer answers[LONGEST];
    memset(end, NOISE, sizeof *end);
    struct run ran = run_second(run, length, &machine, answers);
    end->refusal = ran.refusal;
    end->taken = ran.taken;
    for (size_t i = 0; i < ran.taken; i++) {
        end->answers[i] = answers[i].kind;
        end->results[i] = answers[i].value;
        for (int cycle = 0; cycle < CYCLES; cycle++)
            end->counts[cycle][i] = answers[i].counts[cycle];
    }
    pack_state(end->state, &machine);
}

/* Whether the run of the first so many steps differs. */
static bool first_differ(const struct long_run *run, size_t length)
{
    run_ours(run, length, &ours_end);
    run_twin(run, length, &twin_end);
    return memcmp(&ours_end, &twin_end, sizeof ours_end) != 0;
}

/* Half the steps between one length that does not differ and one that does, until
 * there are none. */
static size_t shortest_that_differs(const struct long_run *run, size_t length)
{
    size_t same = 0;
    while (length - same > 1) {
        size_t middle = same + (length - same) / 2;
        if (first_differ(run, middle))
            length = middle;
        else
            same = middle;
    }
    return length;
}

/* The last steps of the first `length`, from the state that leads to them. */
static void last_steps(const struct long_run *run, size_t length, struct job *job)
{
    static struct machine machine;
    static struct answer answers[LONGEST];
    size_t steps = length < PLACES ? length : PLACES;
    size_t before = length - steps;
    memset(job, 0, sizeof *job);
    job->kind = JOB_RUN;
    run_second(run, before, &machine, answers);
    pack_state(job->state, &machine);
    for (int i = 0; i < COLUMNS; i++)
        job->lengths[i] = steps;
    memcpy(job->read.steps, run->steps + before, steps * sizeof *run->steps);
    memcpy(job->read.cores, run->cores + before, steps * sizeof *run->cores);
    memcpy(job->read.words, run->words + before, steps * sizeof *run->words);
    memcpy(job->read.values, run->values + before, steps * sizeof *run->values);
}

/* The run as a job that is short enough to be told. */
static void narrow(const struct long_run *run, struct job *job)
{
    size_t length = shortest_that_differs(run, run->length);
    last_steps(run, length, job);
    if (!differ(job))
        printf("  a run of %zu steps differs, and its last %d alone do not:\n", length, PLACES);
}

/* The first difference alone is told. */
uint8_t compare_long(const struct long_run *run)
{
    static struct job job;
    bool differs = first_differ(run, run->length);
    size_t taken = twin_end.taken;
    uint8_t refusal = twin_end.refusal;
    if (differs && job.kind == 0)
        narrow(run, &job);
    end_job(&job, taken, differs);
    return refusal;
}
