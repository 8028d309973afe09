#include "records.h"

#include <inttypes.h>
#include <stdio.h>
#include <stdlib.h>

#include "lent.h"
#include "windnadel.h"

enum { MOST_SOURCE = 1 << 16 };

static uint8_t source[MOST_SOURCE];

static void stop(const char *what)
{
    fprintf(stderr, "compile: %s\n", what);
    exit(1);
}

static size_t at_most(uint64_t number, size_t most)
{
    return number < most ? (size_t)number : most;
}

/* "LEN ROOM WORK BUF", the source, and LF. */
static int next_record(FILE *from, struct trial *t)
{
    uint64_t length, room, work, file;
    const int got = fscanf(from, "%" SCNu64 " %" SCNu64 " %" SCNu64 " %" SCNu64, &length, &room, &work, &file);
    if (got == EOF) {
        return 0;
    }
    if (got != 4 || fgetc(from) != '\n' || length > MOST_SOURCE || fread(source, 1, length, from) != length || fgetc(from) != '\n') {
        stop("no record");
    }
    t->source = source;
    t->source_length = length;
    t->room = room < UINT32_MAX ? (uint32_t)room : UINT32_MAX;
    t->work_length = at_most(work, MOST_WORK);
    t->file_length = at_most(file, MOST_FILE);
    return 1;
}

/* "ok STATES BLOCKS HASH" or "refused N at P". */
static struct ended next_answer(FILE *from)
{
    struct ended e = {0, 0, 0, 0, 0};
    char line[128];
    if (fgets(line, sizeof line, from) == NULL) {
        stop("no answer");
    }
    if (sscanf(line, "ok %" SCNu32 " %" SCNu32 " %" SCNx64, &e.states, &e.blocks, &e.hash) != 3
        && sscanf(line, "refused %" SCNu32 " at %" SCNu32, &e.refusal, &e.place) != 2) {
        stop("no answer");
    }
    return e;
}

static void expect(const struct trial *t, struct ended want)
{
    const struct ended got = compiled(t);
    if (got.refusal != want.refusal || got.place != want.place) {
        fprintf(stderr, "compile: refusal %u at %u, not %u at %u\n", (unsigned)got.refusal, (unsigned)got.place,
                (unsigned)want.refusal, (unsigned)want.place);
        failed(t, "another refusal");
    }
    if (got.states != want.states || got.blocks != want.blocks || got.hash != want.hash) {
        failed(t, "another file");
    }
}

static void expect_refusal(const struct trial *t, uint32_t refusal)
{
    const struct ended want = {refusal, 0, 0, 0, 0};
    expect(t, want);
}

/* A file that was made: room, work area and buffer exact, and each of them one short. */
static void around_file(struct trial t, struct ended want)
{
    t.room = want.states;
    t.work_length = WINDNADEL_WORK(t.room);
    t.file_length = 512 * (size_t)want.blocks;
    expect(&t, want);
    t.file_length--;
    expect_refusal(&t, 12);
    t.work_length--;
    expect_refusal(&t, 2);
    t.room--;
    t.work_length = WINDNADEL_WORK(t.room);
    expect_refusal(&t, t.room == 0 ? 1 : 11);
}

/* A fault of the text: the same in the smallest room, with no buffer at all. */
static void around_fault(struct trial t, struct ended want)
{
    t.room = 1;
    t.work_length = WINDNADEL_WORK(t.room);
    t.file_length = 0;
    expect(&t, want);
}

unsigned long try_records(const char *records, const char *answers)
{
    FILE *from = fopen(records, "rb");
    FILE *told = fopen(answers, "r");
    struct trial t;
    unsigned long count = 0;
    if (from == NULL || told == NULL) {
        stop("no records");
    }
    for (; next_record(from, &t); count++) {
        const struct ended want = next_answer(told);
        expect(&t, want);
        if (want.refusal == 0) {
            around_file(t, want);
        } else if (3 <= want.refusal && want.refusal <= 10) {
            around_fault(t, want);
        }
    }
    fclose(from);
    fclose(told);
    return count;
}
