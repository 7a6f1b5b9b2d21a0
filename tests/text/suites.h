/* The tests, by the texts that they give the replays. */
#ifndef SUITES_H
#define SUITES_H

void test_listed(void);
void test_drawn(void);
void test_sizes(void);
void test_rooms(void);

#endif
