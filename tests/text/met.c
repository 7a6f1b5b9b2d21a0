#include "met.h"

#include <stdio.h>
#include <stdlib.h>
#include <string.h>

#include "names.h"

static size_t answers[ANSWERS];
static size_t refusals[REFUSED_LENGTH + 1];

/* `line` is a number, an answer's name, a value and a count. */
static void meet_line(const char *line)
{
    const char *name = strchr(line, ',') + 1;
    const char *value = strchr(name, ',') + 1;
    size_t length = (size_t)(value - 1 - name);
    for (uint32_t kind = 0; kind < ANSWERS; kind++)
        if (strlen(answer_name(kind)) == length &&
            memcmp(answer_name(kind), name, length) == 0)
            answers[kind]++;
    if (memcmp("REFUSED", name, length) == 0)
        refusals[strtoul(value, NULL, 10)]++;
}

static const char *next_line(const char *line)
{
    return strchr(line, '\n') + 1;
}

/* A listing ends with its END line, so no search runs past its bytes. */
size_t meet(const struct listing *listing)
{
    size_t lines = 0;
    for (const char *line = next_line(listing->bytes); line[0] != 'E';
         line = next_line(line)) {
        meet_line(line);
        lines++;
    }
    return lines;
}

size_t answers_met(enum answer_kind answer)
{
    return answers[answer];
}

size_t refusals_met(enum refusal refusal)
{
    return refusals[refusal];
}

void tell_met(void)
{
    printf(" ");
    for (int answer = 0; answer < ANSWER_REFUSED; answer++)
        printf(" %s %zu", answer_name(answer), answers[answer]);
    printf("\n ");
    for (int refusal = NOT_REFUSED + 1; refusal <= REFUSED_LENGTH; refusal++)
        if (refusals[refusal] > 0)
            printf(" REFUSED %d %zu", refusal, refusals[refusal]);
    printf("\n");
}
