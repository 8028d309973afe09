/* Numbers that look random and are the same in every run (xorshift). */
#ifndef RANDOM_H
#define RANDOM_H

#include <stdint.h>

uint32_t random_word(void);

/* A number below the limit, which is not 0. */
uint32_t random_below(uint32_t limit);

#endif
