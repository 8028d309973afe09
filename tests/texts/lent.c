#define _DEFAULT_SOURCE
#include "lent.h"

#include <stdio.h>
#include <stdlib.h>
#include <string.h>
#include <sys/mman.h>
#include <unistd.h>

enum { GUARD = 64, PAINT = 0xA5 };

static uint8_t *from_end, *to_end;
static uint8_t painted[GUARD + MOST];
static const uint8_t *lent_from, *lent_to;
static size_t lent_length;

unsigned long calls;

/* Where an area of this many bytes ends: the page behind it can be neither read nor written. */
static uint8_t *area_end(size_t bytes)
{
    const size_t page = (size_t)sysconf(_SC_PAGESIZE);
    const size_t whole = (bytes + page - 1) / page * page;
    uint8_t *area = mmap(NULL, whole + page, PROT_READ | PROT_WRITE, MAP_PRIVATE | MAP_ANONYMOUS, -1, 0);
    if (area == MAP_FAILED || mprotect(area + whole, page, PROT_NONE) != 0) {
        perror("kiss");
        exit(1);
    }
    return area + whole;
}

void areas_make(void)
{
    from_end = area_end(GUARD + MOST);
    to_end = area_end(GUARD + MOST);
    memset(painted, PAINT, sizeof painted);
}

void failed(const char *what)
{
    fprintf(stderr, "kiss: %s: %zu bytes:\n", what, lent_length);
    fwrite(lent_from, 1, lent_length, stderr);
    fputc('\n', stderr);
    exit(1);
}

const uint8_t *lent_buffer(void)
{
    return lent_to;
}

/* FNV-1a, 64 bits. */
static uint64_t hash_of(const uint8_t *bytes, size_t count)
{
    uint64_t hash = 0xcbf29ce484222325u;
    for (size_t i = 0; i < count; i++)
        hash = (hash ^ bytes[i]) * 0x100000001b3u;
    return hash;
}

/* "A refusal changes no byte, nor a success any past its end." */
static void check_areas(const uint8_t *from, size_t length, size_t room, size_t written)
{
    if (written > room)
        failed("more bytes than the buffer has");
    if (memcmp(lent_to - GUARD, painted, GUARD) != 0)
        failed("a byte before the buffer touched");
    if (memcmp(lent_to + written, painted, room - written) != 0)
        failed("a byte of the buffer touched that must stay");
    if (length > 0 && memcmp(lent_from, from, length) != 0)
        failed("what was only to be read has changed");
}

struct ended called(call *which, uint32_t unit, const uint8_t *from, size_t length, size_t room)
{
    struct ended e = {0, 0, 0, 0};
    uint8_t *to = to_end - room;
    if (length > MOST || room > MOST)
        exit(2);
    lent_from = from_end - length;
    lent_to = to;
    lent_length = length;
    if (length > 0)
        memmove(from_end - length, from, length);
    memset(to - GUARD, PAINT, GUARD + room);
    const uint64_t answer = which(lent_from, length, to, room);
    calls++;
    if (answer >> 32 != 0) {
        e.refusal = (uint32_t)(answer >> 32);
        e.place = (uint32_t)answer;
        check_areas(from, length, room, 0);
    } else {
        e.number = (uint32_t)answer;
        check_areas(from, length, room, (size_t)e.number * unit);
        e.hash = hash_of(to, (size_t)e.number * unit);
    }
    return e;
}
