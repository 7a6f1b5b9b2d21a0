/* The replay program of document 01. */
#include "program.h"

int main(void)
{
    return program_replay((struct dimensions){
        .processors = 4, .words = 16, .lines = 4, .entries = 4});
}
