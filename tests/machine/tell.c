#include "tell.h"

#include <inttypes.h>
#include <stdio.h>

#include "names.h"
#include "pack.h"

static void tell_numbers(const char *name, const uint64_t *numbers, size_t length)
{
    printf("    %s", name);
    for (size_t i = 0; i < length; i++)
        printf(" %" PRIu64, numbers[i]);
    printf("\n");
}

/* What of a place machine2 cannot take is told behind it. */
static void tell_rest(uint64_t number, int bits)
{
    if (number >> bits != 0)
        printf(" # and %" PRIu64 " above bit %d", number >> bits, bits);
    printf("\n");
}

static void tell_line(uint32_t p, uint32_t i, uint64_t copy)
{
    if (copy == 0)
        return;
    printf("    line %" PRIu32 " %" PRIu32 " %" PRIu32 " %" PRIu32 " %" PRIu32, p, i,
           copy_state(copy), copy_word(copy), copy_data(copy));
    if (copy_tag(copy) != NO_TAG)
        printf(" # with tag %" PRIu32, copy_tag(copy));
    tell_rest(copy, COPY_BITS);
}

static void tell_entry(uint32_t p, uint32_t i, uint64_t copy)
{
    if (copy == 0)
        return;
    printf("    entry %" PRIu32 " %" PRIu32 " %" PRIu32 " %" PRIu32 " %" PRIu32 " %" PRIu32,
           p, i, copy_state(copy), copy_tag(copy), copy_word(copy), copy_data(copy));
    tell_rest(copy, COPY_BITS);
}

static void tell_memory(const uint64_t *memory)
{
    size_t length = MAX_WORDS;
    while (length > 0 && memory[length - 1] == 0)
        length--;
    tell_numbers("memory", memory, length);
}

static void tell_processor(const uint64_t *state, uint32_t p)
{
    uint64_t tactive = state[STIRNFELD_TACTIVE + p];
    uint64_t tstatus = state[STIRNFELD_TSTATUS + p];
    if (p < state[STIRNFELD_PROCESSORS] || tactive != 0 || tstatus != 0)
        printf("    flags %" PRIu32 " %" PRIu64 " %" PRIu64 "\n", p, tactive, tstatus);
    for (uint32_t i = 0; i < MAX_LINES; i++)
        tell_line(p, i, state[line_place(p, i)]);
    for (uint32_t i = 0; i < MAX_ENTRIES; i++)
        tell_entry(p, i, state[entry_place(p, i)]);
}

static void tell_kept(const uint64_t *state)
{
    static const struct dimensions largest = {MAX_PROCESSORS, MAX_WORDS, MAX_LINES,
                                              MAX_ENTRIES};
    for (size_t place = 0; place < STIRNFELD_STATE; place++)
        if (!is_reached(&largest, place) && state[place] != 0)
            printf("    # place %zu holds %" PRIu64 "\n", place, state[place]);
}

static void tell_state(const uint64_t *state)
{
    tell_numbers("state", state + STIRNFELD_PROCESSORS, DIMENSIONS);
    tell_memory(state + STIRNFELD_MEMORY);
    for (uint32_t p = 0; p < MAX_PROCESSORS; p++)
        tell_processor(state, p);
    tell_kept(state);
    printf("    end\n");
}

static size_t longest_column(const struct job *job)
{
    size_t most = 0;
    for (int i = 0; i < COLUMNS; i++)
        if (job->lengths[i] > most)
            most = job->lengths[i];
    return most < PLACES ? most : PLACES;
}

static void tell_run(const struct job *job)
{
    tell_numbers("# run over columns of lengths", job->lengths, COLUMNS);
    for (size_t i = 0; i < longest_column(job); i++)
        printf("    step %d %d %" PRIu32 " %" PRIu32 " # %s\n", job->read.steps[i],
               job->read.cores[i], job->read.words[i], job->read.values[i],
               job->read.steps[i] < INSTRUCTIONS ? instruction_name(job->read.steps[i])
                                                 : "no step");
}

static void tell_making(const struct job *job)
{
    tell_numbers("make", job->dimensions, DIMENSIONS);
    printf("    # with %" PRIu64 " words of the memory", job->memory_length);
    for (size_t w = 0; w < job->memory_length; w++)
        printf(" %" PRIu32, job->memory[w]);
    printf("\n");
}

void tell_job(const struct job *job)
{
    if (job->kind != JOB_MAKE)
        tell_state(job->state);
    switch ((enum job_kind)job->kind) {
    case JOB_MAKE: tell_making(job); break;
    case JOB_SOUND: printf("    sound\n"); break;
    case JOB_SETTLE: printf("    # every word's settled value\n"); break;
    case JOB_STEP:
        printf("    step %" PRIu64 " %" PRIu64 " %" PRIu64 " %" PRIu64 "\n", job->step,
               job->core, job->word, job->value);
        break;
    case JOB_RUN: tell_run(job); break;
    }
}

static void tell_words(const char *name, const uint32_t *words, size_t length)
{
    printf("    %s", name);
    for (size_t i = 0; i < length; i++)
        printf(" %" PRIu32, words[i]);
    printf("\n");
}

static void tell_written(const struct written_columns *written, size_t length)
{
    for (size_t i = 0; i < length; i++) {
        printf("    place %zu: answer %d value %" PRIu32 " counts", i, written->answers[i],
               written->results[i]);
        for (int cycle = 0; cycle < CYCLES; cycle++)
            printf(" %" PRIu32, written->counts[cycle][i]);
        printf("\n");
    }
}

void tell_reply(const struct job *job, const struct reply *reply)
{
    printf("    refusal %" PRIu64 "\n", reply->refusal);
    if (job->kind == JOB_SETTLE)
        tell_words("settled", reply->settled, STIRNFELD_SETTLED);
    if (job->kind == JOB_STEP)
        tell_words("told", reply->told, STIRNFELD_TOLD);
    if (job->kind == JOB_RUN) {
        printf("    taken %" PRIu64 "\n", reply->taken);
        tell_written(&reply->written, longest_column(job));
    }
    tell_state(reply->state);
}
