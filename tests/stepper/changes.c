/* Files with several random changes, and files of random bytes behind a likely header. */
#include <string.h>

#include "cases.h"
#include "compare.h"
#include "random.h"
#include "table.h"

static struct table t;
static uint8_t file[FILE_ROOM];

static uint32_t likely_word(void)
{
    switch (random_below(4)) {
    case 0:
        return t.states - 1u + random_below(3);
    case 1:
        return (uint32_t)1 << random_below(16);
    case 2:
        return random_below(256);
    default:
        return random_word();
    }
}

static void one_change(size_t len)
{
    switch (random_below(4)) {
    case 0:
        file[random_below((uint32_t)len)] = (uint8_t)random_word();
        break;
    case 1:
        file[4 + random_below(4)] ^= (uint8_t)(1u << random_below(8));
        break;
    default:
        put_word(file, random_below((uint32_t)len / 2u) * 2u, likely_word());
    }
}

static void changed_file(void)
{
    table_random(&t, random_below(4), random_below(17), 1 + random_below(96));
    size_t len = table_file(&t, file);
    for (uint32_t change = random_below(4); change > 0; change--)
        one_change(len);
    if (random_below(4) != 0)
        number_all(file, len);
    lend(file, len, 0);
    agree_open();
    agree_all();
    unchanged(file);
}

/* Any sizes near the limits; a stream of small words; the right length, or a block off. */
static void random_file(void)
{
    t.inputs = random_below(9);
    t.outputs = random_below(19);
    t.states = random_below(300);
    size_t blocks = (table_stream(&t) + PIECE - 1) / PIECE + random_below(8) / 6u;
    size_t len = (blocks < 79 ? blocks : 79) * BLOCK;
    for (size_t at = 0; at < len; at += 2)
        put_word(file, at, random_below(8) == 0 ? likely_word() : random_below(t.states + 1));
    file[4] = (uint8_t)t.inputs;
    file[5] = (uint8_t)t.outputs;
    put_word(file, 6, t.states);
    if (random_below(4) != 0)
        number_all(file, len);
    agree_file(file, len);
}

void many_changes(void)
{
    trying("several random changes");
    for (int round = 0; round < 20000; round++)
        changed_file();
    trying("random bytes");
    for (int round = 0; round < 3000; round++)
        random_file();
}
