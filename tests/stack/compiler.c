/* The stack of compile over sources that nest as deep as they may, calls in calls too, and over those of the examples: files by name. */
#include <stdio.h>
#include <string.h>

#include "chains.h"
#include "used.h"
#include "windnadel.h"

/* The most stack that a compile may use, without calls and with them, and how deep a source may nest. */
enum { BOUND = 256 * 1024, CALLS_BOUND = 640 * 1024, LEVELS = 32 };

static uint8_t source[WINDNADEL_LONGEST_SOURCE];
static size_t length;
static uint8_t work[WINDNADEL_WORK(WINDNADEL_LARGEST_ROOM)];
static uint8_t file[WINDNADEL_LARGEST_FILE];
static volatile uint64_t kept;

static void compiled(void)
{
    kept = windnadel_compile(source, length, WINDNADEL_LARGEST_ROOM, work, sizeof work, file, sizeof file);
}

static void put(const char *text)
{
    memcpy(source + length, text, strlen(text));
    length += strlen(text);
}

/* `head`, then `part` so many times, then `middle`, then `end` as often, then `tail`. A refusal reads as deep. */
static int nested(const char *name, const char *head, const char *part, int times, const char *middle, const char *end,
                  const char *tail)
{
    length = 0;
    put(head);
    for (int time = 0; time < times; time++)
        put(part);
    put(middle);
    for (int time = 0; time < times; time++)
        put(end);
    put(tail);
    return above(name, compiled, BOUND);
}

/* A statement that holds itself, as deep as may be. */
static int statements(const char *name, const char *part, const char *end)
{
    return nested(name, "program p; output A; ", part, LEVELS, "skip", end, " endprog");
}

/* .. and an expression. */
static int expressions(const char *name, const char *part, const char *end)
{
    return nested(name, "program p; output A; integer x[1]; x := ", part, LEVELS, "x", end, " endprog");
}

/* 31 levels around an operand, and around a statement. */
#define EIGHT(part) part part part part part part part part
#define MOST(part) EIGHT(part) EIGHT(part) EIGHT(part) part part part part part part part
#define DEEP(operand) MOST("(") operand MOST(")")
#define LOOPS(statement) MOST("loop ") statement MOST(" endloop")

/* Calls in calls: as many as a text can hold, and as many as its levels let through. */
static int calls(void)
{
    static const struct chain chains[] = {
        {"calls in calls", "", "skip", "@()", "", 0, "@();", 1, "", 0, 0},
        {"calls with a formal", "a", "raise(a)", "@(a)", "", 0, "@(A);", 1, "", 0, 0},
        {"calls with formals exchanged", "a,b", "raise(a)", "@(b,a)", "", 0, "@(A,A);", 1, "", 0, 0},
        {"calls with an actual of a formal", "a", "skip", "@(a+a)", "", 0, "@(x);", 1, "", 0, 0},
        {"calls in activities", "", "skip", "parallel skip||@() endparallel", "", 0, "@();", 1, "", 0, 0},
        {"calls in cases", "", "skip", "switch case I:@() default:skip endswitch", "", 0, "@();", 1, "", 0, 0},
        {"calls in loops", "", "skip", "loop @() endloop", "", 0, "@();", 1, "", 0, 0},
        {"an actual handed on", "a", "x:=a", "@(a)", "", 0, "@(x);", 1, "", 0, 0},
        {"an actual in parentheses", "a", "x:=a", "@((a))", "", 0, "@(x);", 1, "", 0, 0},
        {"calls above an expression", "", "x:=" DEEP("x"), "@()", "", 0, "@();", 1, "", 0, 0},
        {"calls above a bit of a formal", "a", "if " DEEP("a[0]") " then skip endif", "@(a)", "", 0, "@(x);", 1, "", 0, 0},
        {"calls in levels, above an expression", "", "x:=" DEEP("x"), "@()", "", 0, LOOPS("@()") ";", 1, "", 0, 0},
        {"an actual of a right operand", "a", "x:=a", "@(1*a)", "", 0, "@(x);", 1, "", 0, 0},
    };
    static const int links[] = {5, 6, 7, 15, 16, 30, 31, 32, 33, 1000};
    int failed = 0;
    for (size_t i = 0; i < sizeof chains / sizeof chains[0]; i++) {
        size_t most = 0;
        for (size_t j = 0; j < sizeof links / sizeof links[0]; j++) {
            length = chained(source, sizeof source, &chains[i], links[j]);
            const size_t bytes = used(compiled);
            most = bytes > most ? bytes : most;
        }
        printf("stack: %s takes %zu bytes, at most %d\n", chains[i].name, most, CALLS_BOUND);
        failed |= most > CALLS_BOUND;
    }
    return failed;
}

static int read(const char *name)
{
    FILE *from = fopen(name, "rb");
    if (!from)
        return 1;
    length = fread(source, 1, sizeof source, from);
    fclose(from);
    return above(name, compiled, BOUND);
}

int main(int count, char **names)
{
    int failed = statements("if", "if A then ", " endif");
    failed |= statements("else", "if A then skip else ", " endif");
    failed |= statements("while", "while A do loop ", " endloop");
    failed |= statements("loop", "loop ", " endloop");
    failed |= statements("case", "switch case A: ", " default: skip endswitch");
    failed |= statements("second case", "switch case A: skip case A: ", " default: skip endswitch");
    failed |= statements("default", "switch case A: skip default: ", " endswitch");
    failed |= statements("parallel", "parallel skip || ", " endparallel");
    failed |= statements("third branch", "parallel skip || skip || ", " endparallel");
    failed |= expressions("parentheses", "(", ")");
    failed |= expressions("int", "int(x == ", ")");
    failed |= expressions("right operands", "1 * (", ")");
    failed |= nested("!", "program p; output A; if ", "!", LEVELS - 1, "A", "", " then skip endif endprog");
    failed |= nested("8 activities, deep", "program p; ", "parallel skip || loop ", 7, "skip", " endloop endparallel",
                     " endprog");
    failed |= nested("a long list", "program p; output A; ", "if A then skip endif; ", 127, "skip", "", " endprog");
    failed |= nested("a list in no time", "program p; ", "delay 0; ", 254, "skip", "", " endprog");
    failed |= nested("many cases", "program p; output A; switch ", "case A: skip ", 252, "default: skip", "", " endswitch endprog");
    failed |= nested("many operands", "program p; integer x[1]; x := x", "+x", 511, "", "", " endprog");
    failed |= calls();
    for (int at = 1; at < count; at++)
        failed |= read(names[at]);
    return failed;
}
