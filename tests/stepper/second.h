/* A second reader and stepper of table files, written from the rules alone, to compare with. */
#ifndef SECOND_H
#define SECOND_H

#include <stddef.h>
#include <stdint.h>

#define BLOCK 512u
#define PIECE 504u
#define CHECKED 508u
#define MOST_BLOCKS 67u

/* What is broken in a file: its length, a block's number or total, a block's check, or all else. */
enum { BAD_LENGTH = 21, BAD_NUMBER = 22, BAD_CHECK = 23, BAD_CONTENT = 24 };

/* The CRC-32 of a block's first bytes, bit by bit. */
uint32_t second_check(const uint8_t *bytes, size_t count);

/* Where byte `at` of the stream stands in the file. */
size_t second_place(size_t at);

uint64_t second_open(const uint8_t *file, size_t len);
uint32_t second_step(const uint8_t *file, size_t len, uint32_t state, uint32_t input);
uint32_t second_outputs(const uint8_t *file, size_t len, uint32_t state);

#endif
