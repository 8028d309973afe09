/* What writing and reading KISS text are measured against: plain C that believes everything. */
#ifndef PLAIN_KISS_H
#define PLAIN_KISS_H

#include <stddef.h>
#include <stdint.h>

/* The text of a table file; answers its length. */
uint64_t plain_kiss_write(const uint8_t *file, size_t len, uint8_t *text, size_t text_len);

/* The stream of a text's table, in pieces but without numbers and checks; answers how many bytes. */
uint64_t plain_kiss_read(const uint8_t *text, size_t text_len, uint8_t *file, size_t file_len);

#endif
