/* A text replayed on document 01's machine, and the listing due. */
#ifndef LISTED_H
#define LISTED_H

#include <stddef.h>

#define E "\r\n"
#define HEAD "grant,core,op,word,value" E
#define LIST "record,answer,value,bus" E

void expect_listed(const char *what, const char *input, size_t length, const char *due);

/* The same of a listing too long to write out: how it ends. */
void expect_listed_end(const char *what, const char *input, size_t length,
                       const char *due);

#endif
