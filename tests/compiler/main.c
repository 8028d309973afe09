/* The compile call against the yardstick: answers, places, files, every lent byte, and the stack of it all. main RECORDS ANSWERS */
#include <stdio.h>

#include "lent.h"
#include "records.h"
#include "trials.h"
#include "used.h"

/* The most stack that a compile may use. */
enum { MOST_STACK = 256 * 1024 };

static const char *records;
static const char *answers;

static void tried(void)
{
    try_document();
    const unsigned long count = try_records(records, answers);
    printf("compile: %lu sources, %lu compiles: ok\n", count, compiles);
}

int main(int count, char **words)
{
    if (count != 3) {
        return 2;
    }
    records = words[1];
    answers = words[2];
    return above("the deepest of them", tried, MOST_STACK);
}
