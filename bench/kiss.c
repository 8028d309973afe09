/* Writing and reading KISS text of tables twice as large each time, beside plain C that checks nothing: a call whose time is
   in step with the text has as many nanoseconds a byte in each line. Nothing passes or fails by it. */
#define _POSIX_C_SOURCE 199309L
#include <stdint.h>
#include <stdio.h>
#include <time.h>

#include "../tests/stepper/table.h"
#include "plain_kiss.h"
#include "windnadel.h"

enum { ROUNDS = 15 };

typedef uint64_t call(const uint8_t *from, size_t length, uint8_t *to, size_t room);

static struct table t;
static uint8_t file[FILE_ROOM], text[WINDNADEL_LONGEST_TEXT], back[FILE_ROOM];

static double took(call *which, const uint8_t *from, size_t length, uint8_t *to, size_t room, int calls)
{
    struct timespec start, end;
    static volatile uint64_t kept;
    clock_gettime(CLOCK_MONOTONIC, &start);
    for (int time = 0; time < calls; time++)
        kept += which(from, length, to, room);
    clock_gettime(CLOCK_MONOTONIC, &end);
    return ((double)(end.tv_sec - start.tv_sec) * 1e9 + (double)(end.tv_nsec - start.tv_nsec)) / calls;
}

/* Both in turns, and the best round of each, for a byte of the text. */
static void beside(const char *name, call *ours, call *plain, const uint8_t *from, size_t length, uint8_t *to, size_t room,
                   size_t bytes)
{
    const int calls = (int)(1 + 400000 / bytes);
    double best[2] = {1e18, 1e18};
    for (int round = 0; round < ROUNDS; round++) {
        const double one = took(ours, from, length, to, room, calls), other = took(plain, from, length, to, room, calls);
        best[0] = one < best[0] ? one : best[0];
        best[1] = other < best[1] ? other : best[1];
    }
    printf("kiss %-5s %3u states, %6zu bytes: %6.2f ns a byte; plain %5.2f, ratio %5.1f\n", name, (unsigned)t.states, bytes,
           best[0] / (double)bytes, best[1] / (double)bytes, best[0] / best[1]);
}

int main(void)
{
    for (uint32_t states = 16; states <= 256; states *= 2) {
        table_random(&t, 6, 16, states);
        const size_t length = table_file(&t, file);
        const size_t bytes = (size_t)windnadel_kiss_write(file, length, text, sizeof text);
        beside("write", windnadel_kiss_write, plain_kiss_write, file, length, text, sizeof text, bytes);
        beside("read", windnadel_kiss_read, plain_kiss_read, text, bytes, back, sizeof back, bytes);
    }
    return 0;
}
