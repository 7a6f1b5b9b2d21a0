#include "compare.h"

#include <string.h>

#include "met.h"
#include "ours.h"
#include "twin.h"

const struct terms terms = {"text", "line", "replay"};
struct reply ours, twin;

static struct listing listing;

bool differ(const struct job *job)
{
    ours_answer(job, &ours);
    twin_answer(job, &listing, &twin);
    return ours.length != twin.length || memcmp(ours.bytes, twin.bytes, ours.length) != 0;
}

void compare(const struct job *job)
{
    bool differs = differ(job);
    bool has_lines = job->room >= LINE_ROOM; /* else no line was compared */
    end_job(job, has_lines ? meet(&listing) : 0, differs);
}
