#include "lent.h"

#include <stdio.h>
#include <stdlib.h>
#include <string.h>

#include "windnadel.h"

enum { GUARD = 64, PAINT = 0xA5 };

static uint8_t work_room[GUARD + MOST_WORK + GUARD];
static uint8_t file_room[GUARD + MOST_FILE + GUARD];

unsigned long compiles;

void failed(const struct trial *t, const char *what)
{
    fprintf(stderr, "compile: %s: room %u, work %zu, file %zu, source of %zu bytes:\n", what, (unsigned)t->room,
            t->work_length, t->file_length, t->source_length);
    fwrite(t->source, 1, t->source_length, stderr);
    fputc('\n', stderr);
    exit(1);
}

const uint8_t *file_lent(void)
{
    return file_room + GUARD;
}

static int all(const uint8_t *bytes, size_t count, uint8_t value)
{
    for (size_t i = 0; i < count; i++) {
        if (bytes[i] != value) {
            return 0;
        }
    }
    return 1;
}

static size_t at_most(size_t number, size_t most)
{
    return number < most ? number : most;
}

/* FNV-1a, 64 bits. */
static uint64_t hash_of(const uint8_t *bytes, size_t count)
{
    uint64_t hash = 0xcbf29ce484222325u;
    for (size_t i = 0; i < count; i++) {
        hash = (hash ^ bytes[i]) * 0x100000001b3u;
    }
    return hash;
}

/* "A refusal leaves the file buffer alone; refusals 1 and 2 leave the work area alone; every other end leaves it all zero." */
static void check_areas(const struct trial *t, const struct ended *e)
{
    const uint8_t *work = work_room + GUARD;
    const uint8_t *file = file_room + GUARD;
    const size_t written = 512 * (size_t)e->blocks;
    const int untouched = e->refusal == 1 || e->refusal == 2;
    if (!all(work, t->work_length, untouched ? PAINT : 0)) {
        failed(t, untouched ? "work area touched" : "work area not zero");
    }
    if (t->file_length < written) {
        failed(t, "more blocks than the buffer has");
    }
    if (!all(file + written, t->file_length - written, PAINT)) {
        failed(t, "bytes past the file touched");
    }
    if (!all(work_room, GUARD, PAINT) || !all(work + t->work_length, GUARD, PAINT) || !all(file_room, GUARD, PAINT)
        || !all(file + t->file_length, GUARD, PAINT)) {
        failed(t, "a byte outside what was lent touched");
    }
}

struct ended compiled(const struct trial *t)
{
    struct ended e = {0, 0, 0, 0, 0};
    memset(work_room, PAINT, GUARD + t->work_length + GUARD);
    memset(file_room, PAINT, GUARD + t->file_length + GUARD);
    const uint64_t answer = windnadel_compile(t->source, t->source_length, t->room, work_room + GUARD, t->work_length,
                                              file_room + GUARD, t->file_length);
    compiles++;
    if (windnadel_compile_refused(answer)) {
        e.refusal = windnadel_compile_refusal(answer);
        e.place = windnadel_compile_place(answer);
    } else {
        e.states = windnadel_compile_states(answer);
        e.blocks = windnadel_compile_blocks(answer);
        e.hash = hash_of(file_room + GUARD, at_most(512 * (size_t)e.blocks, MOST_FILE));
    }
    check_areas(t, &e);
    return e;
}
