#include "used.h"

#include <stdint.h>
#include <stdio.h>
#include <string.h>
#include <ucontext.h>

enum { LENGTH = 4 << 20, PAINT = 0xC5 };

static uint8_t stack[LENGTH];
static ucontext_t here, there;

static void nothing(void)
{
}

/* Runs the call on a painted stack of its own; the lowest byte that lost its paint tells how deep it went. */
static size_t depth(void (*call)(void))
{
    size_t at = 0;
    memset(stack, PAINT, sizeof stack);
    getcontext(&there);
    there.uc_stack.ss_sp = stack;
    there.uc_stack.ss_size = sizeof stack;
    there.uc_link = &here;
    makecontext(&there, call, 0);
    swapcontext(&here, &there);
    while (at < sizeof stack && stack[at] == PAINT)
        at++;
    return sizeof stack - at;
}

size_t used(void (*call)(void))
{
    return depth(call) - depth(nothing);
}

int above(const char *name, void (*call)(void), size_t bound)
{
    size_t bytes = used(call);
    printf("stack: %s takes %zu bytes, at most %zu\n", name, bytes, bound);
    return bytes > bound;
}
