/* A job's text, written piece by piece. What does not fit is left out. */
#ifndef WRITE_H
#define WRITE_H

#include "job.h"

#define CRLF "\r\n"
#define HEADER "grant,core,op,word,value"

void write_bytes(struct job *job, const void *bytes, size_t length);
void write_text(struct job *job, const char *text);
void write_number(struct job *job, uint64_t number);

/* So often the same byte. */
void write_run(struct job *job, char byte, size_t times);

#endif
