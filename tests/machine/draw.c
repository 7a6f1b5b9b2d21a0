#include "draw.h"

#include "pack.h"

static void make_fresh(struct machine *machine, struct dice *dice,
                       struct dimensions dimensions)
{
    uint32_t memory[MAX_WORDS];
    for (uint32_t w = 0; w < dimensions.words; w++)
        memory[w] = draw_value(dice);
    machine_make(machine, dimensions, memory, dimensions.words);
}

void draw_fresh(struct job *job, struct dice *dice, struct dimensions dimensions)
{
    struct machine machine;
    make_fresh(&machine, dice, dimensions);
    pack_state(job->state, &machine);
}

void draw_reached(struct job *job, struct dice *dice, struct dimensions dimensions)
{
    struct machine machine;
    struct mood mood;
    make_fresh(&machine, dice, dimensions);
    draw_mood(&mood, dice, dimensions);
    for (uint32_t left = roll_from(dice, 8, 200); left > 0; left--) {
        struct drawn_step s = draw_step(&mood, dice);
        machine_step(&machine, s.step, s.core, s.word, s.value);
    }
    pack_state(job->state, &machine);
}

static void fill(void *bytes, size_t size, struct dice *dice)
{
    for (size_t i = 0; i < size; i++)
        ((uint8_t *)bytes)[i] = (uint8_t)roll(dice);
}

void draw_run(struct job *job, struct dice *dice, const struct mood *mood, size_t length)
{
    job->kind = JOB_RUN;
    for (int i = 0; i < COLUMNS; i++)
        job->lengths[i] = length;
    for (size_t i = 0; i < PLACES; i++) {
        struct drawn_step s = draw_step(mood, dice);
        job->read.steps[i] = s.step;
        job->read.cores[i] = s.core;
        job->read.words[i] = s.word;
        job->read.values[i] = s.value;
    }
    fill(&job->written, sizeof job->written, dice);
}

/* The state may be any, and its dimensions out of range: what is asked for then
 * does not matter. */
void draw_use(struct job *job, struct dice *dice, enum job_kind kind)
{
    struct dimensions d = unpack_dimensions(job->state);
    if (dimensions_refusal(&d) != NOT_REFUSED)
        d = (struct dimensions){1, 1, 1, 1};
    struct mood mood;
    draw_mood(&mood, dice, d);
    draw_run(job, dice, &mood, roll_below(dice, 9));
    struct drawn_step s = draw_step(&mood, dice);
    job->kind = kind;
    job->step = s.step;
    job->core = s.core;
    job->word = s.word;
    job->value = s.value;
}
