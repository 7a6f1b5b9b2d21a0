/* The tests, by what they give the machines to do. */
#ifndef SUITES_H
#define SUITES_H

void test_making(void);
void test_stepping(void);
void test_running(void);
void test_soundness(void);
void test_long(void);

#endif
