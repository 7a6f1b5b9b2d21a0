/* The arrays that a call is lent are those of the reply, so that all that it
 * writes, and whatever it should not have written, is compared. */
#include "ours.h"

#include <string.h>

#include "check.h"
#include "reply.h"

static uint8_t make(const struct job *job, struct reply *reply)
{
    const uint64_t *d = job->dimensions;
    return stirnfeld_make(d[0], d[1], d[2], d[3], job->memory, job->memory_length,
                          reply->state);
}

static uint8_t sound(const struct job *job, struct reply *reply)
{
    (void)reply;
    return stirnfeld_sound(job->state);
}

static uint8_t settle(const struct job *job, struct reply *reply)
{
    return stirnfeld_settle(job->state, reply->settled);
}

static uint8_t step(const struct job *job, struct reply *reply)
{
    return stirnfeld_step(reply->state, (uint8_t)job->step, (uint8_t)job->core,
                          (uint32_t)job->word, (uint32_t)job->value, reply->told);
}

static uint8_t run(const struct job *job, struct reply *reply)
{
    const uint64_t *n = job->lengths;
    const struct read_columns *read = &job->read;
    struct written_columns *written = &reply->written;
    size_t taken = reply->taken;
    uint8_t refusal = stirnfeld_run(
        reply->state, read->steps, n[0], read->cores, n[1], read->words, n[2],
        read->values, n[3], written->answers, n[4], written->results, n[5],
        written->counts[0], n[6], written->counts[1], n[7], written->counts[2], n[8],
        written->counts[3], n[9], written->counts[4], n[10], written->counts[5], n[11],
        &taken);
    reply->taken = taken;
    return refusal;
}

void ours_answer(const struct job *job, struct reply *reply)
{
    static const struct job_functions functions = {
        .make = make, .sound = sound, .settle = settle, .step = step, .run = run};
    struct job lent = *job;
    reply_by(&functions, &lent, reply);
    expect(memcmp(&lent, job, sizeof lent) == 0, "what is only read was written to");
}
