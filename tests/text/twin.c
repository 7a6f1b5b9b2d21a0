#include "twin.h"

#include <string.h>

/* A number that the second program cannot hold is out of range as well. */
static uint32_t dimension(uint64_t number)
{
    return number > UINT32_MAX ? UINT32_MAX : (uint32_t)number;
}

static void list(const struct job *job, struct listing *listing)
{
    static const uint32_t zero[MAX_WORDS];
    static struct machine machine;
    struct dimensions dimensions = {
        dimension(job->dimensions[0]), dimension(job->dimensions[1]),
        dimension(job->dimensions[2]), dimension(job->dimensions[3])};
    enum refusal refusal = machine_make(&machine, dimensions, zero, dimensions.words);
    listing->length = 0;
    if (refusal != NOT_REFUSED)
        text_refuse_machine(refusal, listing);
    else
        text_replay(&machine, job->text, job->length, listing);
}

static size_t line_length(const char *bytes, size_t length)
{
    const char *end = memchr(bytes, '\n', length);
    return end == NULL ? length : (size_t)(end - bytes) + 1;
}

/* docs/DECISIONS.md 29: a line is written only where the longest would fit. */
static size_t piece_length(const char *bytes, size_t length, size_t room)
{
    size_t used = 0;
    while (used < length && used + LINE_ROOM <= room)
        used += line_length(bytes + used, length - used);
    return used;
}

void twin_answer(const struct job *job, struct listing *listing, struct reply *reply)
{
    size_t at = 0;
    uint32_t used;
    list(job, listing);
    reply->length = 0;
    do {
        used = (uint32_t)piece_length(listing->bytes + at, listing->length - at, job->room);
        uint8_t *piece = reply_extend(reply, sizeof used + job->room);
        memcpy(piece, &used, sizeof used);
        memset(piece + sizeof used, (int)job->fill, job->room);
        memcpy(piece + sizeof used, listing->bytes + at, used);
        at += used;
    } while (used > 0);
}
