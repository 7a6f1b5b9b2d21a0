#include "check.h"
#include "suites.h"

int main(void)
{
    test_make();
    test_step();
    test_run();
    test_sound();
    test_settle();
    test_typed();
    test_stack();
    return any_failed();
}
