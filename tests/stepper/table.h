/* Tables as C has them, and the files that hold them: sound ones, and ones past the sizes. */
#ifndef TABLE_H
#define TABLE_H

#include <stddef.h>
#include <stdint.h>

#include "second.h"

/* Room for more than the sizes allow, so that a fault can stand alone in a file. */
#define TABLE_STATES 8448
#define TABLE_NEXT 17024
#define FILE_ROOM (80u * BLOCK)

struct table {
    uint32_t inputs, outputs, states;
    uint16_t out[TABLE_STATES];
    uint16_t next[TABLE_NEXT];
};

/* A random table; where states is 0 it has none. */
void table_random(struct table *t, uint32_t inputs, uint32_t outputs, uint32_t states);

/* Writes the table's file with right numbers, totals and checks; answers its length. */
size_t table_file(const struct table *t, uint8_t *file);

/* Bytes of the table's stream. */
size_t table_stream(const struct table *t);

/* Where the next state for a state and an input, or a state's outputs, stand in the stream. */
size_t table_next_at(const struct table *t, uint32_t state, uint32_t input);
size_t table_out_at(const struct table *t, uint32_t state);

/* The answer of a step or of outputs, for a table within the sizes. */
uint32_t table_step(const struct table *t, uint32_t state, uint32_t input);
uint32_t table_outputs(const struct table *t, uint32_t state);

/* A number in the file, two bytes, low byte first. */
void put_word(uint8_t *file, size_t place, uint32_t value);

/* Gives one block, or all, a right check. */
void seal(uint8_t *file, size_t block);
void seal_all(uint8_t *file, size_t len);

/* Gives every block its number, the total and a right check. */
void number_all(uint8_t *file, size_t len);

#endif
