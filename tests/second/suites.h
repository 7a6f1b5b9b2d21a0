/* The suites that make up the tests. */
#ifndef SUITES_H
#define SUITES_H

void cases_suite(void);
void refusals_suite(void);
void rules_suite(void);
void readings_suite(void);
void sound_suite(void);
void run_suite(void);
void text_suite(void);
void limits_suite(void);
void serial_suite(void);
void mutants_suite(void);

#endif
