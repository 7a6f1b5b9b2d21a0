/* `compare LIMITS COMMAND..` compares the proved replay of a text, by the driver
 * that this command runs, with the second program, as far as the limits say.
 * `write FOLDER` writes some of the texts to files. */
#include <stdio.h>
#include <stdlib.h>
#include <string.h>

#include "check.h"
#include "compare.h"
#include "driver.h"
#include "files.h"
#include "limits.h"
#include "met.h"
#include "suites.h"

/* Far fewer than are met today, and far more than where little is compared. */
enum { TEXTS = 200000, OF_A_RECORD = 10000, OF_A_SIZE = 200, OF_AN_ANSWER = 5000 };

static void expect_refusal(enum refusal refusal, size_t least)
{
    expect(refusals_met(refusal) >= least, "refusal %d only %zu times", refusal,
           refusals_met(refusal));
}

/* Byte 4,194,305 is beyond a job's text, so 14 is met by the programs alone. */
static void enough_is_met(void)
{
    static const enum refusal of_a_record[] = {REFUSED_STEP,   REFUSED_CORE,  REFUSED_WORD,
                                               REFUSED_RECORD, REFUSED_GRANT, REFUSED_HEADER};
    for (size_t i = 0; i < sizeof of_a_record / sizeof *of_a_record; i++)
        expect_refusal(of_a_record[i], OF_A_RECORD);
    for (int refusal = REFUSED_PROCESSORS; refusal <= REFUSED_ENTRIES; refusal++)
        expect_refusal(refusal, OF_A_SIZE);
    for (int answer = 0; answer < ANSWERS; answer++)
        expect(answers_met(answer) >= OF_AN_ANSWER, "answer %d only %zu times", answer,
               answers_met(answer));
    expect(jobs_compared() >= TEXTS, "only %zu texts", jobs_compared());
}

static void driver_ends(void)
{
    expect(driver_end(), "the driver writes more, or does not end well");
}

static bool compare_all(char **command)
{
    driver_start(command);
    test_listed();
    test_drawn();
    test_sizes();
    test_rooms();
    if (!limits_reached())
        test("every answer and every refusal is met often", enough_is_met);
    test("the driver ends with its input", driver_ends);
    tell_compared();
    tell_met();
    return !any_failed();
}

int main(int argc, char **argv)
{
    if (argc > 2 + LIMITS && strcmp(argv[1], "compare") == 0 && limits_read(argv + 2))
        return compare_all(argv + 2 + LIMITS) ? EXIT_SUCCESS : EXIT_FAILURE;
    if (argc == 3 && strcmp(argv[1], "write") == 0)
        return write_files(argv[2]) ? EXIT_SUCCESS : EXIT_FAILURE;
    fprintf(stderr, "usage: %s compare " LIMITS_USAGE " COMMAND [ARGUMENT..] | write FOLDER\n",
            argv[0]);
    return 2;
}
