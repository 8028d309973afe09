/* What a call is lent: bytes that end where memory ends, and a buffer between guards; and what must hold of them afterwards. */
#ifndef LENT_H
#define LENT_H

#include <stddef.h>
#include <stdint.h>

/* One byte more than any text or file needs. */
enum { MOST = 557093 };

/* A call: bytes to read, and a buffer to write to. */
typedef uint64_t call(const uint8_t *from, size_t length, uint8_t *to, size_t room);

/* Its answer taken apart: a refusal and its place, or refusal 0 with the number and the hash of what was written. */
struct ended {
    uint32_t refusal;
    uint32_t place;
    uint32_t number;
    uint64_t hash;
};

/* Makes the areas that are lent. */
void areas_make(void);

/* Lends copies; each number that is answered stands for so many bytes of the buffer. */
struct ended called(call *which, uint32_t unit, const uint8_t *from, size_t length, size_t room);

/* The buffer after the last call. */
const uint8_t *lent_buffer(void);

/* Stops the program: what failed, and on which bytes. */
void failed(const char *what);

/* Calls so far. */
extern unsigned long calls;

#endif
