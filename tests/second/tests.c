#include <stdlib.h>

#include "check.h"
#include "suites.h"

int main(void)
{
    cases_suite();
    refusals_suite();
    rules_suite();
    readings_suite();
    sound_suite();
    run_suite();
    text_suite();
    limits_suite();
    mutants_suite();
    serial_suite();
    return any_failed() ? EXIT_FAILURE : EXIT_SUCCESS;
}
