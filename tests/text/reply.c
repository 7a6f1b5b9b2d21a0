#include <stdlib.h>

#include "job.h"

uint8_t *reply_extend(struct reply *reply, size_t more)
{
    if (reply->capacity - reply->length < more) {
        reply->capacity = 2 * reply->capacity + more;
        reply->bytes = realloc(reply->bytes, reply->capacity);
        if (reply->bytes == NULL)
            abort();
    }
    reply->length += more;
    return reply->bytes + reply->length - more;
}
