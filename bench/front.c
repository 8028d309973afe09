/* Reading the worst sources found: beside a plain pass over the same bytes, and in whole milliseconds. Nothing passes or fails by it. */
#define _POSIX_C_SOURCE 199309L
#include <inttypes.h>
#include <stdint.h>
#include <stdio.h>
#include <string.h>
#include <time.h>

uint64_t windnadel_check(const uint8_t *source, size_t len);
uint64_t plain_pass(const uint8_t *source, size_t len);

enum { LENGTH = 8192, ROUNDS = 7, CALLS = 200, LONG_CALLS = 5 };

static uint8_t source[LENGTH];

/* The best of some rounds, for one call. */
static double nanoseconds(uint64_t (*pass)(const uint8_t *, size_t), int calls)
{
    struct timespec from, to;
    double best = 1e18;
    volatile uint64_t kept = 0;
    for (int round = 0; round < ROUNDS; round++) {
        clock_gettime(CLOCK_MONOTONIC, &from);
        for (int call = 0; call < calls; call++)
            kept += pass(source, LENGTH);
        clock_gettime(CLOCK_MONOTONIC, &to);
        double took = (double)(to.tv_sec - from.tv_sec) * 1e9 + (double)(to.tv_nsec - from.tv_nsec);
        if (took < best)
            best = took;
    }
    return best / calls;
}

/* `head`, then `part` again and again, then blanks to the full length. */
static void measured(const char *name, const char *head, const char *part)
{
    size_t at = strlen(head), step = strlen(part);
    memset(source, ' ', LENGTH);
    memcpy(source, head, at);
    for (; at + step <= LENGTH; at += step)
        memcpy(source + at, part, step);
    uint64_t answer = windnadel_check(source, LENGTH);
    double ours = nanoseconds(windnadel_check, CALLS) / LENGTH, plain = nanoseconds(plain_pass, CALLS) / LENGTH;
    printf("%-22s %6.2f ns a byte; plain pass %5.2f, ratio %6.1f (refusal %" PRIu64 " at %" PRIu64 ")\n",
           name, ours, plain, ours / plain, answer >> 32, answer & 0xFFFFFFFFu);
}

/* Where the text that is being written ends. */
static size_t written;

static void put(const char *text)
{
    size_t len = strlen(text);
    if (written + len <= LENGTH)
        memcpy(source + written, text, len);
    written += len;
}

/* The name number i of those with two bytes, all of them names. */
static const char *name(int i)
{
    static const char first[] = "abceghjklmnopqrstuvwxyzABCDEFGHIJKLMNOPQRSTUVWXYZ";
    static const char second[] = "abcdefghijklmnopqrstuvwxyzABCDEFGHIJKLMNOPQRSTUVWXYZ0123456789_";
    static char text[3];
    text[0] = first[i / 63];
    text[1] = second[i % 63];
    return text;
}

/* So many names declared, then `head`, `part` again and again, and `tail`. */
static void names(const char *what, int declared, const char *head, const char *part, const char *tail)
{
    int used = 0;
    memset(source, ' ', LENGTH);
    written = 0;
    put("program p;internal ");
    for (int i = 0; i < declared; i++) {
        put(i ? "," : "");
        put(name(i));
    }
    put(";");
    put(head);
    for (; *part && written + strlen(part) + strlen(tail) <= LENGTH; used++)
        put(part);
    put(tail);
    uint64_t answer = windnadel_check(source, LENGTH);
    printf("%-28s %6.2f ms (%d names, then one %d times: refusal %" PRIu64 " at %" PRIu64 ")\n", what,
           nanoseconds(windnadel_check, LONG_CALLS) / 1e6, declared, used, answer >> 32, answer & 0xFFFFFFFFu);
}

int main(void)
{
    measured("statements", "program p; ", "skip;");
    measured("assignments", "program p; ", "a:=a;");
    measured("sums", "program p; x := 1", "+1");
    measured("tests", "program p; if a", "&b|c");
    measured("last words of a list", "program p; ", "endcompress ");
    measured("declarations", "program p; ", "input a.H,b.L;");
    measured("signs", "program p; ", "%");
    measured("long names", "program p; ", "a-b-c-d-e-f-g-h ");
    measured("digits", "program p; delay ", "0");
    measured("blanks", "program p; skip endprog", " ");
    names("names", 2719, "skip", "", " endprog");
    names("names, an unknown one used", 2048, "if u", "&u", " then skip endif endprog");
    names("names, the first one used", 1350, "if aa", "&aa", " then skip endif endprog");
    names("names, the last one used", 1350, "if yA", "&yA", " then skip endif endprog");
    names("no names, one used", 1, "if aa", "&aa", " then skip endif endprog");
    return 0;
}
