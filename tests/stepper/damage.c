/* Every byte of a two-block file changed, alone, with its block's check left and made right again. */
#include <string.h>

#include "cases.h"
#include "compare.h"
#include "table.h"

static struct table t;
static uint8_t sound[FILE_ROOM], file[FILE_ROOM];
static size_t length;

static void with_value(size_t place, uint8_t value)
{
    memcpy(file, sound, length);
    file[place] = value;
    lend(file, length, 0);
    expect(agree_open(), BROKEN(place % BLOCK < 4 ? BAD_NUMBER : BAD_CHECK, place / BLOCK));
    agree_all();
    unchanged(file);
    seal(file, place / BLOCK);
    lend(file, length, 0);
    agree_open();
    agree_all();
    unchanged(file);
}

/* Bytes where a rule looks closely: a block's start, its check, and the end of the table. */
static int close_look(size_t place)
{
    size_t in_block = place % BLOCK, end = second_place(table_stream(&t));
    return in_block < 20 || in_block >= CHECKED - 2 || (place + 6 > end && place < end + 6);
}

static void every_value(size_t place)
{
    for (unsigned change = 1; change < 256; change++)
        with_value(place, (uint8_t)(sound[place] ^ change));
}

static void some_values(size_t place)
{
    for (unsigned bit = 0; bit < 8; bit++)
        with_value(place, (uint8_t)(sound[place] ^ 1u << bit));
    with_value(place, (uint8_t)(sound[place] ^ 255u));
    with_value(place, (uint8_t)(sound[place] + 1u));
    if (sound[place] != t.states)
        with_value(place, (uint8_t)t.states);
}

void damaged_bytes(void)
{
    trying("one byte damaged");
    table_random(&t, 2, 11, 70);
    length = table_file(&t, sound);
    for (size_t place = 0; place < length; place++)
        if (close_look(place))
            every_value(place);
        else
            some_values(place);
}
