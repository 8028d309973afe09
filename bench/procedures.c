/* Reading the worst sources with procedures that were found, 50 outermost calls in each, in milliseconds. Nothing passes or fails by it. */
#define _POSIX_C_SOURCE 199309L
#include <inttypes.h>
#include <stdint.h>
#include <stdio.h>
#include <time.h>

#include "chains.h"

uint64_t windnadel_check(const uint8_t *source, size_t len);

/* A call is timed so often, unless one has taken long. A text has room for up to 1,600 outermost calls; here it has some, so that this ends. */
enum { LENGTH = 8192, ROUNDS = 5, LONG = 100, MANY = 50 };

/* Two hundred formals, and as many actuals; the last of them used a hundred times. */
#define TEN(part) part part part part part part part part part part
#define TENS(a) a "0," a "1," a "2," a "3," a "4," a "5," a "6," a "7," a "8," a "9,"
#define FORMALS \
    TENS("a") TENS("b") TENS("c") TENS("d") TENS("e") TENS("f") TENS("g") TENS("h") TENS("i") TENS("j") TENS("k") TENS("l") \
    TENS("m") TENS("o") TENS("q") TENS("r") TENS("s") TENS("t") TENS("u") TENS("v")
#define ACTUALS TEN(TEN("A,")) TEN(TEN("A,"))
#define READS TEN(TEN("zz+")) "zz"
#define RAISES TEN(TEN("raise(v9);"))

/* A shape, and the links with which it was found to take longest. */
static const struct {
    struct chain chain;
    int links;
} shapes[] = {
    {{"doubling", "", "skip", "@();@()", "", 0, "@();", 1, "", 0, 0}, 250},
    {{"doubling, called again", "", "skip", "@();@()", "", 0, "@();", MANY, "", 0, 0}, 7},
    {{"doubling, a formal", "a", "raise(a)", "@(a);@(a)", "", 0, "@(A);", MANY, "", 0, 0}, 60},
    {{"doubling, none is a name", "a", "raise(a)", "@((a));@(a)", "", 0, "@(A);", MANY, "", 0, 0}, 7},
    {{"doubling parts", "a", "x:=a", "@(a+a)", "", 0, "@(x);", MANY, "", 0, 0}, 7},
    {{"doubling, dropped", "a", "skip", "@(a*a)", "", 0, "@(x);", MANY, "", 0, 0}, 100},
    {{"doubling activities", "", "skip", "parallel @()||@() endparallel", "", 0, "@();", MANY, "", 0, 0}, 7},
    {{"chain", "", "skip", "@()", "@();@()", 7, "@();", MANY, "", 0, 0}, 100},
    {{"chain past 255", "", "skip", "@()", "@();@()", 8, "@();", MANY, "", 0, 0}, 100},
    {{"chain, a formal", "a", "skip", "@(a)", "@(a);@(a)", 7, "@(A);", MANY, "", 0, 0}, 100},
    {{"chain, changed", "a", "raise(a)", "@(a)", "@(a);@(a)", 7, "@(A);", MANY, "", 0, 0}, 100},
    {{"chain, changed, past 255", "a", "raise(a)", "@(a)", "@(a);@(a)", 8, "@(A);", MANY, "", 0, 0}, 100},
    {{"chain, a bit", "a", "raise(a)", "@(a)", "@(a);@(a)", 7, "@(x[2]);", MANY, "", 0, 0}, 100},
    {{"chain, indexed", "a", "if a[0] then skip endif", "@(a)", "@(a);@(a)", 6, "@(x);", MANY, "", 0, 0}, 100},
    {{"chain, read", "a", "x:=a#", "@(a)", "@(a);@(a)", 5, "@(x);", MANY, "+a", 7, 0}, 15},
    {{"chain, a deeper actual", "a", "x:=a", "@((a))", "@(a);@(a)", 7, "@(x);", MANY, "", 0, 0}, 15},
    {{"chain, nots", "a", "if a then skip endif", "@(!a)", "@(a);@(a)", 6, "@(I);", MANY, "", 0, 0}, 15},
    {{"chain, permuted", "a,b,c,d,e,f", "raise(a)", "@(b,c,d,e,f,a)", "@(a,b,c,d,e,f);@(f,e,d,c,b,a)", 7, "@(A,A,A,A,A,A);", MANY,
      "", 0, 0}, 100},
    {{"chain, permuted, read", "a,b,c,d,e,f", "x:=a+b+c", "@(b,c,d,e,f,a)", "@(a,b,c,d,e,f);@(f,e,d,c,b,a)", 7, "@(x,x,x,x,x,x);",
      MANY, "", 0, 0}, 100},
    {{"chain in loops", "", "skip", "loop @() endloop", "@();@()", 6, "@();", MANY, "", 0, 0}, 29},
    {{"long actuals, dropped", "a", "skip", "@(a#)", "@(a);@(a)", 8, "@(x);", MANY, "+a", 250, 0}, 7},
    {{"longest actual, dropped", "a", "skip", "@(a#)", "@(a);@(a)", 8, "@(x);", MANY, "+a", 1500, 0}, 1},
    {{"deep actuals, dropped", "a", "skip", "@(" TEN("((") "a" TEN("))") ")", "@(a);@(a)", 8, "@(x);", MANY, "", 0, 0}, 60},
    {{"calls refused late", "a", "#raise(a)", "@((a))", "@(a);@(a)", 8, "@(A);", MANY, "skip;", 250, 0}, 7},
    {{"calls refused late, longest", "a", "#raise(a)", "@((a))", "@(a);@(a)", 8, "@(A);", MANY, "z:=z+z+z+z;", 400, 0}, 7},
    {{"a long body", "a", "#raise(a)", "@(a)", "", 0, "@(A);", MANY, "skip;", 253, 0}, 7},
    {{"many parts", "a", "x:=a#", "@(a)", "", 0, "@(x);", MANY, "+a", 500, 0}, 7},
    {{"calls of the first", "", "skip", "J0()", "#J0()", 1, "@();", MANY, "J0();", 253, 0}, 100},
    {{"chain, sixteen formals", "a,b,c,d,e,f,g,h,i,j,k,l,m,o,q,r", "raise(r)", "@(b,c,d,e,f,g,h,i,j,k,l,m,o,q,r,a)",
      "@(b,c,d,e,f,g,h,i,j,k,l,m,o,q,r,a);@(a,b,c,d,e,f,g,h,i,j,k,l,m,o,q,r)", 7, "@(A,A,A,A,A,A,A,A,A,A,A,A,A,A,A,A);", MANY,
      "", 0, 0}, 100},
    {{"calls inside activities", "", "skip", "@()", "parallel @()||@() endparallel", 3, "@();", MANY, "", 0, 0}, 150},
    {{"one call again", "a", "raise(a)", "@(a)", "", 0, "@(A);", MANY, "", 0, 0}, 150},
    {{"one of many formals, read", "", "x:=" READS, "@(" ACTUALS "x)", "@();@()", 3, "@();", MANY, "", 0, FORMALS "zz"}, 1},
    {{"one of many, refused late, once", "", RAISES "raise(zz)", "@(" ACTUALS "(A))", "@();@()", 8, "@();", 1, "", 0, FORMALS "zz"}, 1},
};

static uint8_t source[LENGTH];

static double milliseconds(size_t length, uint64_t *answer)
{
    struct timespec from, to;
    double best = 1e18;
    for (int round = 0; round < ROUNDS; round++) {
        clock_gettime(CLOCK_MONOTONIC, &from);
        *answer = windnadel_check(source, length);
        clock_gettime(CLOCK_MONOTONIC, &to);
        double took = (double)(to.tv_sec - from.tv_sec) * 1e3 + (double)(to.tv_nsec - from.tv_nsec) / 1e6;
        if (took < best)
            best = took;
        if (took > LONG)
            break;
    }
    return best;
}

/* Prints what a shape takes, and answers its milliseconds. */
static double measured(const struct chain *c, int links)
{
    const size_t length = chained(source, LENGTH, c, links);
    uint64_t answer = 0;
    const double took = milliseconds(length, &answer);
    printf("%-32s %10.2f ms (", c->name, took);
    if (answer == 0)
        printf("good)\n");
    else
        printf("refusal %" PRIu64 " at %" PRIu64 ")\n", answer >> 32, answer & 0xFFFFFFFFu);
    fflush(stdout);
    return took;
}

int main(void)
{
    double slowest = 0;
    for (size_t i = 0; i < sizeof shapes / sizeof shapes[0]; i++) {
        double took = measured(&shapes[i].chain, shapes[i].links);
        if (took > slowest)
            slowest = took;
    }
    printf("%-32s %10.2f ms\n", "the slowest", slowest);
    return 0;
}
