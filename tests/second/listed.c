#include "listed.h"

#include <stdbool.h>
#include <string.h>

#include "check.h"
#include "text.h"

enum { SHOWN = 400 };

static struct listing replayed(const char *input, size_t length)
{
    static const uint32_t zero[16];
    static struct machine machine;
    struct listing listing = {0};
    machine_make(&machine, (struct dimensions){4, 16, 4, 4}, zero, 16);
    text_replay(&machine, input, length, &listing);
    return listing;
}

static void compare(const char *what, const char *due, const char *got, size_t length)
{
    bool same = length == strlen(due) && memcmp(got, due, length) == 0;
    int shown = length < SHOWN ? (int)length : SHOWN;
    expect(same, "%s:\n--- due\n%.400s--- got\n%.*s---", what, due, shown, got);
}

void expect_listed(const char *what, const char *input, size_t length, const char *due)
{
    struct listing listing = replayed(input, length);
    compare(what, due, listing.bytes, listing.length);
    listing_free(&listing);
}

void expect_listed_end(const char *what, const char *input, size_t length,
                       const char *due)
{
    struct listing listing = replayed(input, length);
    size_t tail = strlen(due) < listing.length ? strlen(due) : listing.length;
    compare(what, due, listing.bytes + listing.length - tail, tail);
    listing_free(&listing);
}
