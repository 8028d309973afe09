/*
 * A file lent to the library, with every answer compared with the second implementation's.
 * The first difference is printed and ends the program with status 1.
 */
#ifndef COMPARE_H
#define COMPARE_H

#include <stddef.h>
#include <stdint.h>

/* Makes the area that files are lent from; pages that can't be read stand before and after it. */
void area_make(void);

/* Says what is tried from here on, for the message at a difference. */
void trying(const char *what);

/* Lends a copy of the bytes that can't be written, `gap` bytes before the area's end. */
void lend(const uint8_t *bytes, size_t len, size_t gap);

/* The largest gap for this length: the file then starts where the area does. */
size_t most_gap(size_t len);

/* Calls with any bytes that stay where they are. */
void lend_here(const uint8_t *file, size_t len);

/* Calls on the lent file; the answers are those that both implementations gave. */
uint64_t agree_open(void);
uint32_t agree_step(uint32_t state, uint32_t input);
uint32_t agree_outputs(uint32_t state);

/* An answer that is known beforehand. */
void expect(uint64_t answer, uint64_t wanted);

/* The lent bytes are still these. */
void unchanged(const uint8_t *bytes);

/* All numbers at the edges of this file's table and of the types, each with each. */
void agree_edges(void);

/* Every state and every input of this file's table, and two of each past it. */
void agree_all(void);

/* Lends the bytes at the area's end: open, the edges, and the bytes unchanged. */
void agree_file(const uint8_t *bytes, size_t len);

/* One line with the counts of calls compared, when no difference was found. */
void print_counts(void);

#endif
