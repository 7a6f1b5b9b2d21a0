/* Cases A to J of 'Bench cases', with every count. */
#include "check.h"
#include "scene.h"
#include "suites.h"

static struct machine machine;

static void case_a(void)
{
    bench_make(&machine, 2, 2);
    PLAY(&machine,
         {0, LT, 1, 0, GIVES(VALUE, 11, COUNTS(0, 0, 0, 1, 0, 0))},
         {1, LT, 1, 0, GIVES(VALUE, 11, COUNTS(0, 0, 0, 1, 0, 0))},
         {1, ST, 1, 5, GIVES(ABORTED, 0, COUNTS(0, 0, 0, 0, 1, 1))},
         {1, COMMIT, 0, 0, GIVES(FAILURE, 0, NONE)},
         {0, COMMIT, 0, 0, GIVES(SUCCESS, 0, NONE)});
}

static void case_b(void)
{
    bench_make(&machine, 2, 2);
    PLAY(&machine,
         {0, ST, 1, 5, GIVES(DONE, 0, COUNTS(0, 0, 0, 0, 1, 0))},
         {1, LOAD, 1, 0, GIVES(VALUE, 11, COUNTS(1, 0, 0, 0, 0, 0))},
         {0, COMMIT, 0, 0, GIVES(FAILURE, 0, NONE)});
}

static void case_c(void)
{
    bench_make(&machine, 2, 2);
    PLAY(&machine,
         {0, LT, 1, 0, GIVES(VALUE, 11, COUNTS(0, 0, 0, 1, 0, 0))},
         {1, LOAD, 1, 0, GIVES(VALUE, 11, COUNTS(1, 0, 0, 0, 0, 0))},
         {0, COMMIT, 0, 0, GIVES(SUCCESS, 0, NONE)});
}

static void case_d(void)
{
    bench_make(&machine, 2, 2);
    PLAY(&machine,
         {0, LT, 1, 0, GIVES(VALUE, 11, COUNTS(0, 0, 0, 1, 0, 0))},
         {1, STORE, 1, 9, GIVES(DONE, 0, COUNTS(0, 1, 0, 0, 0, 0))},
         {0, VALIDATE, 0, 0, GIVES(FALSE, 0, NONE)},
         {0, LT, 1, 0, GIVES(VALUE, 9, COUNTS(0, 0, 0, 1, 0, 0))});
}

static void case_e(void)
{
    bench_make(&machine, 2, 2);
    PLAY(&machine,
         {0, ST, 2, 7, GIVES(DONE, 0, COUNTS(0, 0, 0, 0, 1, 0))},
         {0, LOAD, 2, 0, GIVES(VALUE, 12, NONE)},
         {0, COMMIT, 0, 0, GIVES(FAILURE, 0, NONE)});
}

static void case_f(void)
{
    bench_make(&machine, 2, 2);
    PLAY(&machine,
         {0, LT, 0, 0, GIVES(VALUE, 10, COUNTS(0, 0, 0, 1, 0, 0))},
         {0, LT, 1, 0, GIVES(VALUE, 11, COUNTS(0, 0, 0, 1, 0, 0))},
         {0, LT, 2, 0, GIVES(ABORTED, 0, NONE)});
}

static void case_g(void)
{
    bench_make(&machine, 2, 2);
    PLAY(&machine,
         {0, ST, 1, 5, GIVES(DONE, 0, COUNTS(0, 0, 0, 0, 1, 0))},
         {0, COMMIT, 0, 0, GIVES(SUCCESS, 0, NONE)},
         {0, ST, 1, 6, GIVES(DONE, 0, NONE)},
         {0, ABORT, 0, 0, GIVES(DONE, 0, NONE)},
         {1, LT, 1, 0, GIVES(VALUE, 5, COUNTS(0, 0, 0, 1, 0, 0))});
}

static void case_h(void)
{
    bench_make(&machine, 2, 1);
    PLAY(&machine,
         {0, ST, 1, 5, GIVES(DONE, 0, COUNTS(0, 0, 0, 0, 1, 0))},
         {0, COMMIT, 0, 0, GIVES(SUCCESS, 0, NONE)},
         {0, LT, 1, 0, GIVES(VALUE, 5, COUNTS(0, 0, 1, 0, 0, 0))},
         {1, LT, 1, 0, GIVES(ABORTED, 0, COUNTS(0, 0, 0, 1, 0, 1))});
}

static void case_i(void)
{
    bench_make(&machine, 2, 2);
    PLAY(&machine,
         {0, INTERRUPT, 0, 0, GIVES(DONE, 0, NONE)},
         {0, LT, 1, 0, GIVES(ABORTED, 0, NONE)},
         {0, COMMIT, 0, 0, GIVES(FAILURE, 0, NONE)},
         {0, LT, 1, 0, GIVES(VALUE, 11, COUNTS(0, 0, 0, 1, 0, 0))});
}

static void case_j(void)
{
    bench_make(&machine, 2, 2);
    PLAY(&machine,
         {0, LOAD, 1, 0, GIVES(VALUE, 11, COUNTS(1, 0, 0, 0, 0, 0))},
         {1, LT, 1, 0, GIVES(VALUE, 11, COUNTS(0, 0, 0, 1, 0, 0))},
         {0, STORE, 1, 8, GIVES(DONE, 0, COUNTS(0, 0, 1, 0, 0, 0))},
         {1, COMMIT, 0, 0, GIVES(FAILURE, 0, NONE)});
}

void cases_suite(void)
{
    test("case A", case_a);
    test("case B", case_b);
    test("case C", case_c);
    test("case D", case_d);
    test("case E", case_e);
    test("case F", case_f);
    test("case G", case_g);
    test("case H", case_h);
    test("case I", case_i);
    test("case J", case_j);
}
