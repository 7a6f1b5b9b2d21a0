/* The tests, by the function that they call. */
#ifndef SUITES_H
#define SUITES_H

void test_make(void);
void test_step(void);
void test_run(void);
void test_sound(void);
void test_settle(void);

/* Of the header's types and inline functions, and of the stack that a call needs. */
void test_typed(void);
void test_stack(void);

/* Ways in which the bench machine's state is none, one after the other: BODY is
 * called on it, and the state is put right again. */
void for_each_unsound(void (*body)(const char *what));

#endif
