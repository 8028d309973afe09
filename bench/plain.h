/* What the library is measured against: plain C with no checks at all. */
#ifndef PLAIN_H
#define PLAIN_H

#include <stddef.h>
#include <stdint.h>

/* The next state from a flat table of 2^inputs words a state. */
uint32_t plain_flat(const uint16_t *next, size_t inputs, uint32_t state, uint32_t input);

/* The next state from the file's bytes. */
uint32_t plain_bytes(const uint8_t *file, size_t inputs, uint32_t state, uint32_t input);

/* Makes the table that plain_checks uses. */
void plain_prepare(void);

/* Whether all blocks' checks are right, by a table of 256 entries. */
int plain_checks(const uint8_t *file, size_t len);

#endif
