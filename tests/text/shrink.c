#include "shrink.h"

#include <string.h>

typedef bool differs(const struct job *job);

static bool leave_out(struct job *job, size_t from, size_t to, differs *differ)
{
    static struct job shorter;
    shorter = *job;
    memmove(shorter.text + from, shorter.text + to, job->length - to);
    shorter.length -= to - from;
    if (!differ(&shorter))
        return false;
    *job = shorter;
    return true;
}

/* Where the line begins that ends before `end`. */
static size_t line_start(const struct job *job, size_t end)
{
    size_t at = end - 1;
    while (at > 0 && job->text[at - 1] != '\n')
        at--;
    return at;
}

static bool shrink_lines(struct job *job, differs *differ)
{
    bool shorter = false;
    for (size_t end = job->length, start; end > 0; end = start) {
        start = line_start(job, end);
        shorter |= leave_out(job, start, end, differ);
    }
    return shorter;
}

static bool shrink_bytes(struct job *job, differs *differ)
{
    bool shorter = false;
    for (size_t at = job->length; at-- > 0;)
        shorter |= leave_out(job, at, at + 1, differ);
    return shorter;
}

void shrink(struct job *job, bool (*differ)(const struct job *job))
{
    while (shrink_lines(job, differ))
        continue;
    while (shrink_bytes(job, differ))
        continue;
}
