/* What a compile is lent, with guard bytes around each area, and what must hold of it afterwards. */
#ifndef LENT_H
#define LENT_H

#include <stddef.h>
#include <stdint.h>

/* A source, what is lent to compile it, and what must come of it. */
struct trial {
    const uint8_t *source;
    size_t source_length;
    uint32_t room;
    size_t work_length;
    size_t file_length;
};

/* The answer of a compile, taken apart: a refusal and its place, or refusal 0 with the counts and the file's hash. */
struct ended {
    uint32_t refusal;
    uint32_t place;
    uint32_t states;
    uint32_t blocks;
    uint64_t hash;
};

/* The bytes that the work area and the file buffer may have. */
enum { MOST_WORK = 65536, MOST_FILE = 65536 };

/* Compiles, and stops the program unless every lent byte is as it must be after such an answer. */
struct ended compiled(const struct trial *t);

/* The file buffer after the last compile. */
const uint8_t *file_lent(void);

/* Stops the program: what failed, and on which source. */
void failed(const struct trial *t, const char *what);

/* Compiles so far. */
extern unsigned long compiles;

#endif
