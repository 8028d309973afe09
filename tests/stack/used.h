/* How many bytes of stack a call takes, measured. */
#ifndef USED_H
#define USED_H

#include <stddef.h>

size_t used(void (*call)(void));

/* Prints the number, and answers 1 where it passes the bound. */
int above(const char *name, void (*call)(void), size_t bound);

#endif
