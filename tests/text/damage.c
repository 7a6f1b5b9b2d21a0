#include "damage.h"

#include <string.h>

char draw_byte(struct dice *dice)
{
    static const char telling[] = "\r\n\r\n,,,\"\" 000123456789LSTXOADCMIBRVENUPlt-+.\t";
    if (roll_one_in(dice, 4))
        return (char)roll(dice);
    return telling[roll_below(dice, sizeof telling - 1)];
}

static size_t spot(const struct job *job, struct dice *dice)
{
    return roll_below(dice, (uint32_t)job->length);
}

static size_t length_from(const struct job *job, struct dice *dice, size_t at)
{
    size_t most = job->length - at;
    size_t length = roll_one_in(dice, 4) ? roll_from(dice, 1, 40) : 1;
    return length < most ? length : most;
}

static void replace(struct job *job, struct dice *dice)
{
    job->text[spot(job, dice)] = draw_byte(dice);
}

static void remove_some(struct job *job, struct dice *dice)
{
    size_t at = spot(job, dice);
    size_t length = length_from(job, dice, at);
    memmove(job->text + at, job->text + at + length, job->length - at - length);
    job->length -= length;
}

/* A gap of so many bytes, which hold what they held before. */
static void open_gap(struct job *job, size_t at, size_t length)
{
    if (length > MOST_BYTES - job->length)
        return;
    memmove(job->text + at + length, job->text + at, job->length - at);
    job->length += length;
}

static void insert(struct job *job, struct dice *dice)
{
    size_t at = roll_below(dice, (uint32_t)job->length + 1);
    if (job->length == MOST_BYTES)
        return;
    open_gap(job, at, 1);
    job->text[at] = draw_byte(dice);
}

static void double_some(struct job *job, struct dice *dice)
{
    size_t at = spot(job, dice);
    open_gap(job, at, length_from(job, dice, at));
}

static void swap(struct job *job, struct dice *dice)
{
    size_t one = spot(job, dice);
    size_t other = roll_one_in(dice, 2) && one > 0 ? one - 1 : spot(job, dice);
    char byte = job->text[one];
    job->text[one] = job->text[other];
    job->text[other] = byte;
}

static void cut_short(struct job *job, struct dice *dice)
{
    job->length = spot(job, dice);
}

static void flip_case(struct job *job, struct dice *dice)
{
    job->text[spot(job, dice)] ^= 0x20;
}

void damage(struct job *job, struct dice *dice)
{
    if (job->length == 0) {
        insert(job, dice);
        return;
    }
    switch (roll_below(dice, 16)) {
    case 0: cut_short(job, dice); break;
    case 1: flip_case(job, dice); break;
    case 2: case 3: case 4: remove_some(job, dice); break;
    case 5: case 6: case 7: double_some(job, dice); break;
    case 8: case 9: swap(job, dice); break;
    case 10: case 11: case 12: insert(job, dice); break;
    default: replace(job, dice); break;
    }
}
