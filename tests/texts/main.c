/* The calls for KISS text against the yardstick: answers, places, bytes, every lent byte, and back again. main JOBS ANSWERS */
#include <inttypes.h>
#include <stdio.h>
#include <stdlib.h>
#include <string.h>

#include "lent.h"
#include "windnadel.h"

/* A job: which call, its bytes, the buffer's length. */
struct job {
    int writes;
    size_t length, room;
};

static uint8_t bytes[MOST];
static uint8_t made[MOST];
static unsigned long written, read_back, refused;

static void stop(const char *what)
{
    fprintf(stderr, "kiss: %s\n", what);
    exit(1);
}

/* "write LEN BUF" or "read LEN BUF", the bytes, and LF. */
static int next_job(FILE *from, struct job *j)
{
    char way[8];
    uint64_t length, room;
    const int got = fscanf(from, "%7s %" SCNu64 " %" SCNu64, way, &length, &room);
    if (got == EOF)
        return 0;
    if (got != 3 || fgetc(from) != '\n' || length > MOST || fread(bytes, 1, length, from) != length || fgetc(from) != '\n')
        stop("no job");
    j->writes = strcmp(way, "write") == 0;
    j->length = length;
    j->room = room < MOST ? (size_t)room : MOST;
    return 1;
}

/* "ok NUMBER HASH" or "refused N at P". */
static struct ended next_answer(FILE *from)
{
    struct ended e = {0, 0, 0, 0};
    char line[128];
    if (fgets(line, sizeof line, from) == NULL)
        stop("no answer");
    if (sscanf(line, "ok %" SCNu32 " %" SCNx64, &e.number, &e.hash) != 2
        && sscanf(line, "refused %" SCNu32 " at %" SCNu32, &e.refusal, &e.place) != 2)
        stop("no answer");
    return e;
}

static struct ended tried(int writes, const uint8_t *from, size_t length, size_t room)
{
    return writes ? called(windnadel_kiss_write, 1, from, length, room)
                  : called(windnadel_kiss_read, WINDNADEL_BLOCK, from, length, room);
}

static void expect(int writes, const uint8_t *from, size_t length, size_t room, struct ended want)
{
    const struct ended got = tried(writes, from, length, room);
    if (got.refusal != want.refusal || got.place != want.place) {
        fprintf(stderr, "kiss: refusal %" PRIu32 " at %" PRIu32 ", not %" PRIu32 " at %" PRIu32 "\n", got.refusal,
                got.place, want.refusal, want.place);
        failed("another refusal");
    }
    if (got.number != want.number || got.hash != want.hash)
        failed("other bytes");
}

/* What was made: in a buffer that is exact, and refused in one a byte shorter; then back to the bytes it came from. */
static void around_made(int writes, size_t length, struct ended want)
{
    const struct ended twelve = {WINDNADEL_SHORT_BUFFER, 0, 0, 0};
    const size_t size = (size_t)want.number * (writes ? 1 : WINDNADEL_BLOCK);
    expect(writes, bytes, length, size, want);
    memcpy(made, lent_buffer(), size);
    expect(writes, bytes, length, size - 1, twelve);
    const struct ended back = tried(!writes, made, size, length);
    if (back.refusal != 0 || (size_t)back.number * (writes ? WINDNADEL_BLOCK : 1) != length
        || memcmp(lent_buffer(), bytes, length) != 0)
        failed("not the same bytes back");
    *(writes ? &written : &read_back) += 1;
}

static void one(const struct job *j, struct ended want)
{
    expect(j->writes, bytes, j->length, j->room, want);
    if (want.refusal == 0) {
        around_made(j->writes, j->length, want);
    } else {
        refused++;
        /* All but 12 are told in any buffer. */
        if (want.refusal != WINDNADEL_SHORT_BUFFER)
            expect(j->writes, bytes, j->length, 0, want);
    }
}

int main(int count, char **words)
{
    FILE *jobs = count == 3 ? fopen(words[1], "rb") : NULL;
    FILE *answers = count == 3 ? fopen(words[2], "r") : NULL;
    struct job j;
    if (jobs == NULL || answers == NULL)
        stop("main JOBS ANSWERS");
    areas_make();
    while (next_job(jobs, &j))
        one(&j, next_answer(answers));
    printf("kiss: %lu texts written and %lu read, there and back, %lu refused, %lu calls: ok\n", written, read_back,
           refused, calls);
    return written == 0 || read_back == 0 || refused == 0;
}
