#include "logs.h"

#include "names.h"
#include "odd.h"
#include "write.h"

struct log {
    struct job *job;
    struct dice *dice;
    struct mood mood;
    enum oddity oddity;
    uint32_t grant;
};

uint64_t draw_room(struct dice *dice)
{
    static const uint32_t rooms[] = {72, 73, 97, 100, 143, 144, 145, 255, 256, 1000, 4096};
    if (roll_one_in(dice, 400))
        return roll_one_in(dice, 2) ? MOST_BYTES : roll_from(dice, 4096, MOST_BYTES);
    if (roll_one_in(dice, 40))
        return roll_below(dice, LINE_ROOM);
    if (roll_one_in(dice, 8))
        return rooms[roll_below(dice, sizeof rooms / sizeof *rooms)];
    return roll_from(dice, 150, 700);
}

void draw_job(struct job *job, struct dice *dice, struct dimensions dimensions)
{
    job->dimensions[0] = dimensions.processors;
    job->dimensions[1] = dimensions.words;
    job->dimensions[2] = dimensions.lines;
    job->dimensions[3] = dimensions.entries;
    job->room = draw_room(dice);
    job->fill = roll_below(dice, 256);
    job->length = 0;
}

static bool odd_now(struct log *log)
{
    return log->oddity != NEVER_ODD && roll_one_in(log->dice, log->oddity);
}

static void add_number(struct log *log, uint32_t number)
{
    if (!odd_now(log))
        write_number(log->job, number);
    else if (roll_one_in(log->dice, 3))
        write_digits(log->job, log->dice);
    else
        write_odd(log->job, log->dice, &odd_numbers);
}

static void add_name(struct log *log, uint32_t instruction)
{
    if (!odd_now(log))
        write_text(log->job, instruction_name(instruction));
    else if (roll_one_in(log->dice, 2))
        write_wrong_name(log->job, log->dice);
    else
        write_odd(log->job, log->dice, &odd_names);
}

static void add_end(struct log *log)
{
    if (odd_now(log))
        write_odd(log->job, log->dice, &odd_ends);
    else
        write_text(log->job, CRLF);
}

/* Grants rise; where things are odd, they may stay, fall, or reach the top. */
static uint32_t next_grant(struct log *log)
{
    if (log->grant < UINT32_MAX - 3)
        log->grant += roll_from(log->dice, 1, 3);
    if (!odd_now(log))
        return log->grant;
    switch (roll_below(log->dice, 8)) {
    case 0: return UINT32_MAX;
    case 1: return log->grant = roll_below(log->dice, 20);
    case 2: return log->grant -= 1;
    default: return log->grant - roll_from(log->dice, 1, 6);
    }
}

/* In range as drawn; where things are odd, just out of it, or far. */
static uint32_t place(struct log *log, uint32_t drawn, uint32_t size)
{
    if (!odd_now(log))
        return drawn;
    return roll_one_in(log->dice, 2) ? size + roll_below(log->dice, 2)
                                     : (uint32_t)roll(log->dice);
}

/* A step that uses no word may name any. */
static uint32_t word_of(struct log *log, const struct drawn_step *step)
{
    if (step->step > ST && roll_one_in(log->dice, 3))
        return (uint32_t)roll(log->dice);
    return place(log, step->word, log->mood.dimensions.words);
}

static void add_record(struct log *log)
{
    struct drawn_step step = draw_step(&log->mood, log->dice);
    add_number(log, next_grant(log));
    write_text(log->job, ",");
    add_number(log, place(log, step.core, log->mood.dimensions.processors));
    write_text(log->job, ",");
    add_name(log, step.step);
    write_text(log->job, ",");
    add_number(log, word_of(log, &step));
    write_text(log->job, ",");
    add_number(log, step.value);
    add_end(log);
}

static void add_line(struct log *log)
{
    if (!odd_now(log)) {
        add_record(log);
        return;
    }
    if (roll_one_in(log->dice, 4))
        write_record_of_length(log->job, roll_from(log->dice, 60, 68));
    else
        write_odd(log->job, log->dice, &odd_records);
    add_end(log);
}

void draw_log(struct job *job, struct dice *dice, uint32_t records, enum oddity oddity)
{
    struct log log = {.job = job, .dice = dice, .oddity = oddity,
                      .grant = roll_below(dice, 3)};
    draw_mood(&log.mood, dice, (struct dimensions){
        (uint32_t)job->dimensions[0], (uint32_t)job->dimensions[1],
        (uint32_t)job->dimensions[2], (uint32_t)job->dimensions[3]});
    job->length = 0;
    write_text(job, HEADER CRLF);
    while (records-- > 0)
        add_line(&log);
    if (roll_one_in(dice, 4) && job->length > 2)
        job->length -= roll_from(dice, 1, 2);
}
