#include "shrink.h"

#include <string.h>

static size_t shortest_column(const struct job *job)
{
    size_t least = PLACES;
    for (int i = 0; i < COLUMNS; i++)
        if (job->lengths[i] < least)
            least = job->lengths[i];
    return least;
}

static void close_gap(struct read_columns *read, size_t at)
{
    size_t after = PLACES - at - 1;
    memmove(read->steps + at, read->steps + at + 1, after * sizeof *read->steps);
    memmove(read->cores + at, read->cores + at + 1, after * sizeof *read->cores);
    memmove(read->words + at, read->words + at + 1, after * sizeof *read->words);
    memmove(read->values + at, read->values + at + 1, after * sizeof *read->values);
}

static void leave_out_step(struct job *job, size_t at)
{
    close_gap(&job->read, at);
    for (int i = 0; i < COLUMNS; i++)
        job->lengths[i]--;
}

static bool keep(struct job *job, const struct job *shorter,
                 bool (*differ)(const struct job *job))
{
    if (memcmp(job, shorter, sizeof *job) == 0 || !differ(shorter))
        return false;
    *job = *shorter;
    return true;
}

static bool shrink_steps(struct job *job, bool (*differ)(const struct job *job))
{
    bool shorter = false;
    for (size_t at = shortest_column(job); job->kind == JOB_RUN && at-- > 0;) {
        struct job trial = *job;
        leave_out_step(&trial, at);
        shorter |= keep(job, &trial, differ);
    }
    return shorter;
}

/* All but the dimensions and the flags. */
static bool shrink_state(struct job *job, bool (*differ)(const struct job *job))
{
    bool shorter = false;
    for (size_t place = STIRNFELD_MEMORY; place < STIRNFELD_STATE; place++) {
        struct job trial = *job;
        trial.state[place] = 0;
        shorter |= keep(job, &trial, differ);
    }
    return shorter;
}

static bool shrink_memory(struct job *job, bool (*differ)(const struct job *job))
{
    bool shorter = false;
    for (size_t w = 0; job->kind == JOB_MAKE && w < MAX_WORDS; w++) {
        struct job trial = *job;
        trial.memory[w] = 0;
        shorter |= keep(job, &trial, differ);
    }
    return shorter;
}

void shrink(struct job *job, bool (*differ)(const struct job *job))
{
    bool shorter = true;
    while (shorter) {
        shorter = shrink_steps(job, differ);
        shorter |= shrink_state(job, differ);
        shorter |= shrink_memory(job, differ);
    }
}
