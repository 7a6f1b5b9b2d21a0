#include "check.h"

#include <stdarg.h>
#include <stdio.h>

static bool this_failed;
static bool some_failed;

void test(const char *name, void (*body)(void))
{
    this_failed = false;
    body();
    some_failed |= this_failed;
    printf("%s %s\n", this_failed ? "FAILED" : "ok", name);
    fflush(stdout);
}

void expect(bool holds, const char *format, ...)
{
    if (holds)
        return;
    va_list arguments;
    va_start(arguments, format);
    printf("  not so: ");
    vprintf(format, arguments);
    printf("\n");
    va_end(arguments);
    this_failed = true;
}

bool any_failed(void)
{
    return some_failed;
}
