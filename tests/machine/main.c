/* Compares the proved machine with the second program, as far as the limits say. */
#include <stdio.h>
#include <stdlib.h>

#include "check.h"
#include "compare.h"
#include "limits.h"
#include "suites.h"

static void everything_is_met(void)
{
    for (int answer = 0; answer < ANSWER_REFUSED; answer++)
        expect(answers_met(answer) > 0, "no answer %d", answer);
    for (int refusal = NOT_REFUSED; refusal <= REFUSED_COLUMNS; refusal++)
        expect(refusals_met(refusal) > 0, "no refusal %d", refusal);
}

int main(int argc, char **argv)
{
    if (argc != 1 + LIMITS || !limits_read(argv + 1)) {
        fprintf(stderr, "usage: %s " LIMITS_USAGE "\n", argv[0]);
        return 2;
    }
    test_making();
    test_stepping();
    test_running();
    test_soundness();
    test_long();
    if (!limits_reached())
        test("every answer and every refusal is met", everything_is_met);
    tell_compared();
    return any_failed() ? EXIT_FAILURE : EXIT_SUCCESS;
}
