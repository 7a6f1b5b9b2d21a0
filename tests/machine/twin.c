#include "twin.h"

#include "pack.h"
#include "reply.h"
#include "run.h"
#include "sound.h"

static uint8_t make(const struct job *job, struct reply *reply)
{
    struct machine machine;
    struct dimensions dimensions = unpack_dimensions(job->dimensions);
    enum refusal refusal =
        machine_make(&machine, dimensions, job->memory, job->memory_length);
    if (refusal == NOT_REFUSED)
        pack_state(reply->state, &machine);
    return refusal;
}

/* The state of a job as the second program has it, and whether it is sound. */
static bool hand_in(const struct job *job, struct machine *machine)
{
    unpack_state(machine, job->state);
    return dimensions_refusal(&machine->dimensions) == NOT_REFUSED &&
           state_in_form(job->state) && machine_sound(machine);
}

static uint8_t sound(const struct job *job, struct reply *reply)
{
    struct machine machine;
    (void)reply;
    return hand_in(job, &machine) ? NOT_REFUSED : REFUSED_STATE;
}

static uint8_t settle(const struct job *job, struct reply *reply)
{
    struct machine machine;
    if (!hand_in(job, &machine))
        return REFUSED_STATE;
    for (uint32_t word = 0; word < MAX_WORDS; word++)
        reply->settled[word] =
            word < machine.dimensions.words ? machine_settled(&machine, word) : 0;
    return NOT_REFUSED;
}

static uint8_t step(const struct job *job, struct reply *reply)
{
    struct machine machine;
    if (!hand_in(job, &machine))
        return REFUSED_STATE;
    struct answer answer =
        machine_step(&machine, job->step, job->core, job->word, job->value);
    if (answer.kind == ANSWER_REFUSED)
        return answer.refusal;
    reply->told[0] = answer.kind;
    reply->told[1] = answer.value;
    for (int i = 0; i < CYCLES; i++)
        reply->told[2 + i] = answer.counts[i];
    pack_state(reply->state, &machine);
    return NOT_REFUSED;
}

static void write_answers(struct written_columns *written, const struct answer *answers,
                          size_t taken)
{
    for (size_t i = 0; i < taken; i++) {
        written->answers[i] = answers[i].kind;
        written->results[i] = answers[i].value;
        for (int cycle = 0; cycle < CYCLES; cycle++)
            written->counts[cycle][i] = answers[i].counts[cycle];
    }
}

/* The second program has one column of answers where a job has eight. Where
 * those differ among themselves, one of them differs from the steps'. */
static size_t answers_length(const struct job *job)
{
    for (int i = COLUMN_ANSWERS; i < COLUMNS; i++)
        if (job->lengths[i] != job->lengths[COLUMN_ANSWERS])
            return job->lengths[COLUMN_STEPS] + 1;
    return job->lengths[COLUMN_ANSWERS];
}

static uint8_t run(const struct job *job, struct reply *reply)
{
    struct machine machine;
    reply->taken = 0;
    if (!hand_in(job, &machine))
        return REFUSED_STATE;
    uint32_t steps[PLACES], cores[PLACES];
    for (int i = 0; i < PLACES; i++) {
        steps[i] = job->read.steps[i];
        cores[i] = job->read.cores[i];
    }
    struct answer answers[PLACES];
    struct run ran = machine_run(&machine, &(struct columns){
        steps, cores, job->read.words, job->read.values, answers,
        job->lengths[COLUMN_STEPS], job->lengths[COLUMN_CORES],
        job->lengths[COLUMN_WORDS], job->lengths[COLUMN_VALUES], answers_length(job)});
    reply->taken = ran.taken;
    write_answers(&reply->written, answers, ran.taken);
    pack_state(reply->state, &machine);
    return ran.refusal;
}

void twin_answer(const struct job *job, struct reply *reply)
{
    static const struct job_functions functions = {
        .make = make, .sound = sound, .settle = settle, .step = step, .run = run};
    reply_by(&functions, job, reply);
}
