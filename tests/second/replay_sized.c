/* The replay program on a machine whose processors, words, lines and entries
 * are its four arguments; one that is missing or no decimal counts as 0. */
#include <string.h>

#include "decimal.h"
#include "program.h"

static uint32_t argument(int count, char **arguments, int index)
{
    uint32_t number = 0;
    if (index < count)
        decimal_parse(arguments[index], strlen(arguments[index]), &number);
    return number;
}

int main(int count, char **arguments)
{
    return program_replay((struct dimensions){
        .processors = argument(count, arguments, 1),
        .words = argument(count, arguments, 2),
        .lines = argument(count, arguments, 3),
        .entries = argument(count, arguments, 4)});
}
