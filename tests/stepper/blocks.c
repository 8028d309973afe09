/* Bad blocks: the first one decides what is told, and its position is the place, wherever it stands and whatever follows. */
#include <string.h>

#include "cases.h"
#include "compare.h"
#include "random.h"
#include "table.h"

static struct table t;
static uint8_t sound[FILE_ROOM], file[FILE_ROOM];
static size_t length;

static void start(uint32_t inputs, uint32_t states)
{
    table_random(&t, inputs, 9, states);
    length = table_file(&t, sound);
    memcpy(file, sound, length);
}

/* Open names what is broken and where; a step looks at no number, total or check. */
static void refused_at(int number, size_t place)
{
    lend(file, length, 0);
    expect(agree_open(), BROKEN(number, place));
    for (uint32_t state = 0; state < t.states; state++)
        expect(agree_step(state, 0), table_step(&t, state, 0));
    unchanged(file);
    memcpy(file, sound, length);
}

/* The number and the total come before the check of the same block, whether that is made right or not. */
static void wrong_word(size_t block, size_t offset, uint32_t change)
{
    size_t place = block * BLOCK + offset;
    put_word(file, place, file[place] + 256u * file[place + 1] + change);
    refused_at(BAD_NUMBER, block);
    put_word(file, place, file[place] + 256u * file[place + 1] + change);
    seal(file, block);
    refused_at(BAD_NUMBER, block);
}

static void wrong_numbers(void)
{
    static const uint32_t changes[] = {1, 0xFFFF, 0x100, 0x8000};
    trying("a wrong number or total");
    for (size_t block = 0; block < length / BLOCK; block++) {
        for (size_t at = 0; at < sizeof changes / sizeof *changes; at++) {
            wrong_word(block, 0, changes[at]);
            wrong_word(block, 2, changes[at]);
        }
    }
}

static void wrong_checks(void)
{
    trying("a wrong check");
    for (size_t block = 0; block < length / BLOCK; block++) {
        for (size_t offset = CHECKED; offset < BLOCK; offset++) {
            file[block * BLOCK + offset] ^= (uint8_t)(1u << random_below(8));
            refused_at(BAD_CHECK, block);
        }
        memset(file + block * BLOCK + CHECKED, 0, 4);
        refused_at(BAD_CHECK, block);
    }
}

/* A later block, and the content, are wrong as well. */
static void several_wrong(void)
{
    trying("several bad blocks");
    for (size_t first = 0; first < length / BLOCK; first++) {
        file[first * BLOCK + CHECKED + first % 4] ^= 1;
        for (size_t later = first + 1; later < length / BLOCK; later++)
            file[later * BLOCK + random_below(4)] ^= 0x40;
        refused_at(BAD_CHECK, first);
    }
    for (size_t block = 1; block < length / BLOCK; block++) {
        file[block * BLOCK + 3] ^= 1;
        file[4] = 7;
        seal(file, 0);
        lend(file, length, 0);
        expect(agree_open(), BROKEN(BAD_NUMBER, block));
        expect(agree_step(0, 0), REFUSED(BAD_CONTENT));
        memcpy(file, sound, length);
    }
}

/* Whole sound blocks in the wrong order, or one twice: the first that moved is named. */
static void moved_blocks(void)
{
    trying("blocks in the wrong order");
    for (size_t block = 0; block + 1 < length / BLOCK; block++) {
        memcpy(file + block * BLOCK, sound + (block + 1) * BLOCK, BLOCK);
        memcpy(file + (block + 1) * BLOCK, sound + block * BLOCK, BLOCK);
        lend(file, length, 0);
        expect(agree_open(), BROKEN(BAD_NUMBER, block));
        agree_edges();
        memcpy(file + block * BLOCK, sound + block * BLOCK, BLOCK);
        lend(file, length, 0);
        expect(agree_open(), BROKEN(BAD_NUMBER, block + 1));
        agree_edges();
        memcpy(file, sound, length);
    }
}

void bad_blocks(void)
{
    static const uint32_t sizes[][2] = {{1, 2}, {2, 70}, {3, 200}, {6, 256}};
    for (size_t at = 0; at < sizeof sizes / sizeof *sizes; at++) {
        start(sizes[at][0], sizes[at][1]);
        wrong_numbers();
        wrong_checks();
        several_wrong();
        moved_blocks();
    }
}
