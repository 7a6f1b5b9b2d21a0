/* The driver of a proved crate: a process that is sent jobs and answers each. */
#ifndef DRIVER_H
#define DRIVER_H

#include <stdbool.h>
#include <stddef.h>

/* `command` ends in NULL. Whatever goes wrong from here on is said, and ends
 * the tests. */
void driver_start(char *const command[]);
void driver_send(const void *bytes, size_t length);
void driver_receive(void *place, size_t length);

/* Ends its input; whether it then wrote nothing more and ended well. */
bool driver_end(void);

#endif
