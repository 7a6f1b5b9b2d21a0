#include "program.h"

#include <stdio.h>
#include <stdlib.h>

#include "text.h"

/* Refusal 14 ends the reading, so no byte after the first beyond the limit
 * can matter. */
enum { INPUT_CAPACITY = TEXT_LIMIT + 1 };

static void replay_input(struct machine *machine, struct listing *listing)
{
    char *input = malloc(INPUT_CAPACITY);
    if (input == NULL)
        abort();
    size_t length = fread(input, 1, INPUT_CAPACITY, stdin);
    text_replay(machine, input, length, listing);
    free(input);
}

int program_replay(struct dimensions dimensions)
{
    static const uint32_t zero[MAX_WORDS];
    static struct machine machine;
    struct listing listing = {0};
    enum refusal refusal = machine_make(&machine, dimensions, zero, dimensions.words);
    if (refusal != NOT_REFUSED)
        text_refuse_machine(refusal, &listing);
    else
        replay_input(&machine, &listing);
    size_t written = fwrite(listing.bytes, 1, listing.length, stdout);
    int failed = written != listing.length || fflush(stdout) != 0 || ferror(stdin);
    listing_free(&listing);
    return failed ? EXIT_FAILURE : EXIT_SUCCESS;
}
