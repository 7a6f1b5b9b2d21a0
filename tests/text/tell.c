#include "tell.h"

#include <inttypes.h>
#include <stdbool.h>
#include <stdio.h>
#include <string.h>

/* As the shell's printf takes them inside single quotes. */
static void tell_bytes(const void *bytes, size_t length)
{
    const uint8_t *next = bytes;
    for (size_t i = 0; i < length; i++) {
        if (next[i] == '\r')
            printf("\\r");
        else if (next[i] == '\n')
            printf("\\n");
        else if (next[i] == '%')
            printf("%%%%");
        else if (next[i] < ' ' || next[i] > '~' || next[i] == '\'' || next[i] == '\\')
            printf("\\%03o", next[i]);
        else
            printf("%c", next[i]);
    }
}

void tell_job(const struct job *job)
{
    printf("    printf '");
    tell_bytes(job->text, job->length);
    printf("' | replay_sized");
    for (int i = 0; i < DIMENSIONS; i++)
        printf(" %" PRIu64, job->dimensions[i]);
    printf(" # %" PRIu64 " bytes, lent %" PRIu64 "\n", job->length, job->room);
}

static bool kept(const uint8_t *bytes, size_t length, uint8_t fill)
{
    for (size_t i = 0; i < length; i++)
        if (bytes[i] != fill)
            return false;
    return true;
}

void tell_reply(const struct job *job, const struct reply *reply)
{
    uint32_t used;
    for (size_t at = 0; at < reply->length; at += sizeof used + job->room) {
        const uint8_t *piece = reply->bytes + at + sizeof used;
        memcpy(&used, reply->bytes + at, sizeof used);
        printf("    %" PRIu32 ": ", used);
        size_t shown = used < job->room ? used : job->room;
        tell_bytes(piece, shown);
        if (!kept(piece + shown, job->room - shown, (uint8_t)job->fill)) {
            printf(" and, not kept, ");
            tell_bytes(piece + shown, job->room - shown);
        }
        printf("\n");
    }
}
