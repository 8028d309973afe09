/* Files of every wrong length, with what follows the file's end made as tempting as can be. */
#define _DEFAULT_SOURCE
#include <string.h>
#include <sys/mman.h>

#include "cases.h"
#include "compare.h"
#include "table.h"

static struct table t;
static uint8_t file[FILE_ROOM], copy[FILE_ROOM];

/* A length that no file can have is told first; else the content has another count of blocks. */
static int wrong(size_t len)
{
    return len == 0 || len % BLOCK != 0 || len / BLOCK > MOST_BLOCKS ? BAD_LENGTH : BAD_CONTENT;
}

/* A bad last block is named only where the length is one that a file can have. */
static void last_block_bad(size_t len)
{
    size_t blocks = len / BLOCK;
    if (blocks == 0)
        return;
    copy[blocks * BLOCK - 1] ^= 1;
    lend(copy, len, 0);
    expect(agree_open(), wrong(len) == BAD_LENGTH ? BROKEN(BAD_LENGTH, 0) : BROKEN(BAD_CHECK, blocks - 1));
}

/* The first len bytes as they are, and with numbers, totals and checks made right for len. */
static void at_length(size_t len, size_t right)
{
    agree_file(file, len);
    memcpy(copy, file, len);
    number_all(copy, len);
    lend(copy, len, 0);
    uint64_t answer = agree_open();
    if (len != right) {
        expect(answer, BROKEN(wrong(len), 0));
        expect(agree_step(0, 0), REFUSED(wrong(len)));
        expect(agree_step(0xFFFFFFFFu, 0xFFFFFFFFu), REFUSED(wrong(len)));
        expect(agree_outputs(0), REFUSED(wrong(len)));
    }
    agree_edges();
    last_block_bad(len);
}

static void every_length(uint32_t inputs, uint32_t outputs, uint32_t states, uint8_t beyond)
{
    table_random(&t, inputs, outputs, states);
    size_t right = table_file(&t, file);
    memset(file + right, beyond, FILE_ROOM - right);
    for (size_t len = 0; len <= 1100; len++)
        at_length(len, right);
    for (size_t blocks = 3; blocks <= 79; blocks++)
        for (size_t len = blocks * BLOCK - 1; len <= blocks * BLOCK + 1; len++)
            at_length(len, right);
}

/* Lengths that look right when cut to 8, 16 or 32 bits of bytes or of blocks. */
static void very_long(void)
{
#if SIZE_MAX > 0xFFFFFFFF
    const size_t room = ((size_t)1 << 32) + 2 * BLOCK;
    const size_t lengths[] = {
        257 * BLOCK, 65537 * BLOCK, 65536 + BLOCK, (size_t)1 << 32, ((size_t)1 << 32) + BLOCK, room,
    };
    uint8_t *wide = mmap(NULL, room, PROT_READ, MAP_PRIVATE | MAP_ANONYMOUS | MAP_NORESERVE, -1, 0);
    expect(wide == MAP_FAILED, 0);
    expect((uint64_t)mprotect(wide, BLOCK, PROT_READ | PROT_WRITE), 0);
    table_random(&t, 1, 1, 2);
    expect(table_file(&t, wide), BLOCK);
    for (size_t at = 0; at < sizeof lengths / sizeof *lengths; at++) {
        lend_here(wide, lengths[at]);
        expect(agree_open(), BROKEN(BAD_LENGTH, 0));
        expect(agree_step(0, 0), REFUSED(BAD_LENGTH));
        expect(agree_outputs(0), REFUSED(BAD_LENGTH));
    }
    munmap(wide, room);
#endif
}

void cut_and_lengthened(void)
{
    trying("a cut or lengthened file");
    every_length(1, 1, 2, 0);
    every_length(1, 1, 2, 255);
    every_length(2, 11, 70, 0);
    every_length(6, 16, 256, 0);
    trying("a very long file");
    very_long();
}
