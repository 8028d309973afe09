/* Sources made of procedures that each call the one before, for tests of the stack and for benchmarks. */
#ifndef CHAINS_H
#define CHAINS_H

#include <stddef.h>
#include <stdint.h>

/* Bodies and calls of a source. In each, `@` is the procedure before (in `call` the last one) and `#` the filler, `fills` times. */
struct chain {
    const char *name;
    const char *formals;
    const char *first; /* the body of the first procedure */
    const char *link;  /* the body of each of the links */
    const char *top;   /* the body of each of the tops, which follow them */
    int tops;
    const char *call;  /* a statement with a `;`, again and again while there is room */
    int calls;         /* how often at most */
    const char *filler;
    int fills;
    const char *first_formals; /* those of the first procedure, where it has others */
};

/* Writes the source with so many links, fewer where they do not fit, and answers its length, `room` at most; 0 if nothing fits. */
size_t chained(uint8_t *source, size_t room, const struct chain *c, int links);

#endif
