#include "limits.h"

#include <stdlib.h>
#include <string.h>
#include <time.h>

static uint64_t first_seed;
static time_t end; /* 0 for none */
static bool ends_at_a_difference;
static bool reached;

static bool read_number(const char *word, uint64_t *number)
{
    char *rest;
    *number = strtoull(word, &rest, 10);
    return rest != word && *rest == '\0';
}

bool limits_read(char *const words[LIMITS])
{
    uint64_t seconds;
    ends_at_a_difference = strcmp(words[0], "first") == 0;
    if (!ends_at_a_difference && strcmp(words[0], "all") != 0)
        return false;
    if (!read_number(words[1], &first_seed) || !read_number(words[2], &seconds))
        return false;
    end = seconds == 0 ? 0 : time(NULL) + (time_t)seconds;
    return true;
}

uint64_t test_seed(uint64_t number)
{
    return first_seed + number;
}

void limits_differ(void)
{
    reached |= ends_at_a_difference;
}

bool limits_reached(void)
{
    reached |= end != 0 && time(NULL) >= end;
    return reached;
}
