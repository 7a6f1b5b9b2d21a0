#include "compare.h"

#include <string.h>

#include "ours.h"
#include "twin.h"

const struct terms terms = {"job", "step", "machine"};
struct reply ours, twin;

static size_t answers[ANSWER_REFUSED];
static size_t refusals[REFUSED_LENGTH + 1];

bool differ(const struct job *job)
{
    ours_answer(job, &ours);
    twin_answer(job, &twin);
    return memcmp(&ours, &twin, sizeof ours) != 0;
}

/* Says how many steps were taken. */
static size_t count(const struct job *job, const struct reply *reply)
{
    refusals[reply->refusal]++;
    if (job->kind == JOB_STEP && reply->refusal == NOT_REFUSED) {
        answers[reply->told[0]]++;
        return 1;
    }
    if (job->kind != JOB_RUN)
        return 0;
    for (size_t i = 0; i < reply->taken; i++)
        answers[reply->written.answers[i]]++;
    return reply->taken;
}

void compare(const struct job *job, struct reply *reply)
{
    bool differs = differ(job);
    *reply = ours;
    end_job(job, count(job, &twin), differs);
}

size_t answers_met(enum answer_kind answer)
{
    return answers[answer];
}

size_t refusals_met(enum refusal refusal)
{
    return refusals[refusal];
}
