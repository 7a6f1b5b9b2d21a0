/* Draws a log for the replay's own machine and writes it to standard output:
 * as many records as fit BYTES. Called as draw_log KIND BYTES; tells on standard
 * error how many records that is. */
#include <inttypes.h>
#include <stdio.h>
#include <stdlib.h>

#include "draw.h"
#include "names.h"

enum { PROCESSORS = 4, WORDS = 16, LONGEST = 66 };

int main(int argc, char **argv)
{
    const struct kind *kind = argc == 3 ? kind_named(argv[1]) : NULL;
    if (kind == NULL)
        return EXIT_FAILURE;
    unsigned long room = strtoul(argv[2], NULL, 10);
    room -= (unsigned long)printf("grant,core,op,word,value\r\n");
    uint32_t records = 0;
    while (room >= LONGEST) {
        struct drawn drawn = draw_step(kind, PROCESSORS, WORDS);
        room -= (unsigned long)printf("%" PRIu32 ",%u,%s,%u,%u\r\n", ++records, drawn.core,
                                      instruction_name(drawn.step), drawn.word, drawn.value);
    }
    fprintf(stderr, "%" PRIu32 "\n", records);
    return ferror(stdout) ? EXIT_FAILURE : EXIT_SUCCESS;
}
