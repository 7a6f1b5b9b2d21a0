/* Named tests. Each prints `ok NAME` or `FAILED NAME`, which the run script
 * counts; what failed is told on the lines before. */
#ifndef CHECK_H
#define CHECK_H

#include <stdbool.h>

void test(const char *name, void (*body)(void));

__attribute__((format(printf, 2, 3)))
void expect(bool holds, const char *format, ...);

/* Whether any test has failed so far. */
bool any_failed(void);

#endif
