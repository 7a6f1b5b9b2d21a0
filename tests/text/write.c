#include "write.h"

#include <inttypes.h>
#include <stdio.h>
#include <string.h>

void write_bytes(struct job *job, const void *bytes, size_t length)
{
    if (length > MOST_BYTES - job->length)
        return;
    memcpy(job->text + job->length, bytes, length);
    job->length += length;
}

void write_text(struct job *job, const char *text)
{
    write_bytes(job, text, strlen(text));
}

void write_number(struct job *job, uint64_t number)
{
    char digits[21];
    snprintf(digits, sizeof digits, "%" PRIu64, number);
    write_text(job, digits);
}

void write_run(struct job *job, char byte, size_t times)
{
    for (size_t i = 0; i < times; i++)
        write_bytes(job, &byte, 1);
}
