/*
 * What a step and an opening cost, each against plain C without checks, in one run.
 * Every step waits for the one before: its state is that one's answer.
 * Rounds are short, so that most run undisturbed on a loaded machine too, and the works take turns;
 * of each work's many rounds the third lowest counts.
 */
#define _POSIX_C_SOURCE 199309L
#include <stdio.h>
#include <stdlib.h>
#include <time.h>

#include "../tests/stepper/random.h"
#include "../tests/stepper/table.h"
#include "plain.h"
#include "windnadel.h"

#define ROUNDS 3001
#define LOWEST 2
#define STEPS 2000
#define OPENED_BYTES 16384

static struct table t;
static uint8_t file[FILE_ROOM];
static size_t length;
static uint32_t inputs[STEPS];

typedef uint32_t work(void);

static uint32_t library_steps(void)
{
    uint32_t state = 0;
    for (size_t at = 0; at < STEPS; at++)
        state = windnadel_step(file, length, state, inputs[at]);
    return state;
}

static uint32_t flat_steps(void)
{
    uint32_t state = 0;
    for (size_t at = 0; at < STEPS; at++)
        state = plain_flat(t.next, t.inputs, state, inputs[at]);
    return state;
}

static uint32_t bytes_steps(void)
{
    uint32_t state = 0;
    for (size_t at = 0; at < STEPS; at++)
        state = plain_bytes(file, t.inputs, state, inputs[at]);
    return state;
}

static uint32_t library_opens(void)
{
    uint32_t refused = 0;
    for (size_t bytes = 0; bytes < OPENED_BYTES; bytes += length)
        refused |= (uint32_t)windnadel_open_refused(windnadel_open(file, length));
    return refused;
}

static uint32_t plain_opens(void)
{
    uint32_t refused = 0;
    for (size_t bytes = 0; bytes < OPENED_BYTES; bytes += length)
        refused |= (uint32_t)!plain_checks(file, length);
    return refused;
}

/* Nanoseconds that the work takes; its answer must be the one that the others gave. */
static double timed(work *w, uint32_t wanted)
{
    struct timespec from, to;
    clock_gettime(CLOCK_MONOTONIC, &from);
    uint32_t answer = w();
    clock_gettime(CLOCK_MONOTONIC, &to);
    if (answer != wanted) {
        fprintf(stderr, "bench: the answers differ\n");
        exit(1);
    }
    return 1e9 * (double)(to.tv_sec - from.tv_sec) + (double)(to.tv_nsec - from.tv_nsec);
}

static int by_size(const void *a, const void *b)
{
    double x = *(const double *)a, y = *(const double *)b;
    return (x > y) - (x < y);
}

/* The third lowest of each work's rounds; the works take turns, so that all meet the same machine. */
static void thirds(work *const *works, size_t count, double *third)
{
    static double rounds[3][ROUNDS];
    uint32_t wanted = works[0]();
    for (size_t round = 0; round < ROUNDS; round++)
        for (size_t at = 0; at < count; at++)
            rounds[at][round] = timed(works[at], wanted);
    for (size_t at = 0; at < count; at++) {
        qsort(rounds[at], ROUNDS, sizeof rounds[at][0], by_size);
        third[at] = rounds[at][LOWEST];
    }
}

static void step_line(const char *name)
{
    static work *const works[] = {library_steps, flat_steps, bytes_steps};
    double m[3];
    for (size_t at = 0; at < STEPS; at++)
        inputs[at] = random_below((uint32_t)1 << t.inputs);
    thirds(works, 3, m);
    printf("step %-28s %6.2f ns; flat table %6.2f ns, ratio %5.2f; file's bytes %6.2f ns, ratio %5.2f\n",
           name, m[0] / STEPS, m[1] / STEPS, m[0] / m[1], m[2] / STEPS, m[0] / m[2]);
}

static void open_line(const char *name)
{
    static work *const works[] = {library_opens, plain_opens};
    double m[2];
    double bytes = (double)((OPENED_BYTES + length - 1) / length * length);
    thirds(works, 2, m);
    printf("open %-28s %6.3f ns a byte; table-driven check alone %6.3f ns a byte, ratio %5.2f\n",
           name, m[0] / bytes, m[1] / bytes, m[0] / m[1]);
}

static void measured(const char *name)
{
    length = table_file(&t, file);
    step_line(name);
    open_line(name);
}

int main(void)
{
    plain_prepare();
    t = (struct table){.inputs = 1, .outputs = 1, .states = 2, .out = {0, 1}, .next = {0, 1, 1, 0}};
    measured("blink");
    table_random(&t, 3, 16, 200);
    measured("200 states, 3 inputs");
    table_random(&t, 6, 16, 256);
    measured("256 states, 6 inputs");
    return 0;
}
