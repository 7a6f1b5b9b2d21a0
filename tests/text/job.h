/* A job for the driver of the proved replay (crates/retell) and its reply, byte
 * for byte as they are sent: every number is little-endian. */
#ifndef JOB_H
#define JOB_H

#include <stddef.h>
#include <stdint.h>

/* A line of the listing is written where LINE_ROOM bytes are free. */
enum { DIMENSIONS = 4, MOST_BYTES = 65536, LINE_ROOM = 72 };

/* `room` bytes are lent to each piece, at most MOST_BYTES, and filled with `fill`
 * before it. Of `text` only `length` bytes are sent. */
struct job {
    uint64_t dimensions[DIMENSIONS];
    uint64_t room;
    uint64_t fill;
    uint64_t length;
    char text[MOST_BYTES];
};

/* A piece is its length, a number of four bytes, then all that was lent to it. A
 * piece of length 0 is the last. */
struct reply {
    uint8_t *bytes;
    size_t length;
    size_t capacity;
};

/* Makes the reply longer by so many bytes, and says where they are. */
uint8_t *reply_extend(struct reply *reply, size_t more);

#endif
