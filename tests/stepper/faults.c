/* One fault of content at a time, in a file whose numbers, totals and checks are right. */
#include <string.h>

#include "cases.h"
#include "compare.h"
#include "table.h"

static struct table t;
static uint8_t file[FILE_ROOM];

/* Whole blocks, each right in itself: the content is bad, unless there are too many of them. */
static void refused_throughout(size_t len)
{
    int number = len / BLOCK > MOST_BLOCKS ? BAD_LENGTH : BAD_CONTENT;
    lend(file, len, 0);
    expect(agree_open(), BROKEN(number, 0));
    expect(agree_step(0, 0), REFUSED(number));
    expect(agree_step(0xFFFFFFFFu, 0xFFFFFFFFu), REFUSED(number));
    expect(agree_outputs(0), REFUSED(number));
    expect(agree_outputs(0xFFFFFFFFu), REFUSED(number));
    agree_edges();
    unchanged(file);
}

/* A file that is sound but for its sizes: its length is the one they call for. */
static void past_sizes(uint32_t inputs, uint32_t outputs, uint32_t states)
{
    table_random(&t, inputs, outputs, states);
    refused_throughout(table_file(&t, file));
}

/* Sizes in the header that a shift by a number of 32 or 64 bits would take for smaller ones. */
static void wrapped_shift(uint32_t named, uint32_t inputs)
{
    table_random(&t, inputs, 16, 2);
    size_t len = table_file(&t, file);
    file[4] = (uint8_t)named;
    seal_all(file, len);
    refused_throughout(len);
}

static void sizes_passed(void)
{
    static const uint32_t states[] = {0, 257, 258, 511, 512, 513, 1024, 4096, 8441};
    trying("sizes passed");
    for (uint32_t inputs = 7; inputs <= 14; inputs++) {
        past_sizes(inputs, 3, 1);
        past_sizes(inputs, 3, 16384u >> inputs);
    }
    for (uint32_t inputs = 32; inputs < 256; inputs++)
        if (inputs % 32 <= 6)
            wrapped_shift(inputs, inputs % 32);
    for (uint32_t outputs = 17; outputs < 256; outputs++)
        past_sizes(1, outputs, 2);
    for (size_t at = 0; at < sizeof states / sizeof *states; at++)
        past_sizes(0, 3, states[at]);
    past_sizes(6, 3, 257);
}

/* Open refuses; steps and outputs answer by the table, which has the fault in it. */
static void by_table(void)
{
    lend(file, table_file(&t, file), 0);
    expect(agree_open(), BROKEN(BAD_CONTENT, 0));
    for (uint32_t state = 0; state < t.states; state++) {
        expect(agree_outputs(state), table_outputs(&t, state));
        for (uint32_t input = 0; input < (uint32_t)1 << t.inputs; input++)
            expect(agree_step(state, input), table_step(&t, state, input));
    }
    unchanged(file);
}

static void spare_bits(uint32_t inputs, uint32_t outputs, uint32_t states)
{
    trying("a spare output bit");
    table_random(&t, inputs, outputs, states);
    for (uint32_t state = 0; state < states; state++) {
        uint16_t kept = t.out[state];
        for (uint32_t bit = outputs; bit < 16; bit++) {
            t.out[state] = (uint16_t)(kept | 1u << bit);
            by_table();
        }
        t.out[state] = kept;
    }
}

static void next_states(uint32_t inputs, uint32_t outputs, uint32_t states)
{
    trying("a next state not in the table");
    table_random(&t, inputs, outputs, states);
    for (uint32_t at = 0; at < states << inputs; at++) {
        uint16_t kept = t.next[at];
        t.next[at] = (uint16_t)states;
        by_table();
        t.next[at] = (uint16_t)(256u + kept % states);
        if (t.next[at] >= states)
            by_table();
        t.next[at] = 65535;
        by_table();
        t.next[at] = kept;
    }
}

static void filling(uint32_t inputs, uint32_t outputs, uint32_t states)
{
    static const uint8_t values[] = {1, 128, 255};
    trying("a byte of the filling");
    table_random(&t, inputs, outputs, states);
    size_t len = table_file(&t, file);
    for (size_t at = table_stream(&t); at < len / BLOCK * PIECE; at++) {
        for (size_t v = 0; v < sizeof values; v++) {
            file[second_place(at)] = values[v];
            seal(file, len / BLOCK - 1);
            lend(file, len, 0);
            expect(agree_open(), BROKEN(BAD_CONTENT, 0));
            expect(agree_step(0, 0), table_step(&t, 0, 0));
            expect(agree_outputs(0), table_outputs(&t, 0));
        }
        file[second_place(at)] = 0;
    }
}

/* One block more, all zeros, or one less, with every block right in itself. */
static void block_count(uint32_t inputs, uint32_t outputs, uint32_t states)
{
    trying("the block count");
    table_random(&t, inputs, outputs, states);
    size_t len = table_file(&t, file);
    if (len > BLOCK) {
        number_all(file, len - BLOCK);
        refused_throughout(len - BLOCK);
    }
    len = table_file(&t, file);
    memset(file + len, 0, BLOCK);
    number_all(file, len + BLOCK);
    refused_throughout(len + BLOCK);
}

void single_faults(void)
{
    sizes_passed();
    spare_bits(1, 1, 2);
    spare_bits(2, 11, 70);
    spare_bits(0, 0, 256);
    spare_bits(6, 15, 256);
    next_states(1, 1, 2);
    next_states(2, 11, 70);
    next_states(0, 16, 256);
    next_states(3, 0, 1);
    filling(1, 1, 2);
    filling(2, 11, 70);
    filling(6, 16, 256);
    for (uint32_t states = 1; states <= 256; states++)
        block_count(states % 7, 5, states);
    block_count(6, 16, 256);
}
