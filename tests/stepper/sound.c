/* Sound files of every kind of size, against the table that they were made from. */
#include "cases.h"
#include "compare.h"
#include "random.h"
#include "table.h"

static struct table t;
static uint8_t file[FILE_ROOM];

static void whole_table(void)
{
    for (uint32_t state = 0; state < t.states + 2; state++) {
        expect(agree_outputs(state), table_outputs(&t, state));
        for (uint32_t input = 0; input < ((uint32_t)1 << t.inputs) + 2; input++)
            expect(agree_step(state, input), table_step(&t, state, input));
    }
}

static void one_file(uint32_t inputs, uint32_t outputs, uint32_t states)
{
    table_random(&t, inputs, outputs, states);
    size_t len = table_file(&t, file);
    lend(file, len, 0);
    expect(agree_open(), t.out[0]);
    whole_table();
    agree_edges();
    unchanged(file);
}

/* The extremes of every field at once: all bits set, the last state everywhere. */
static void full_file(uint32_t inputs, uint32_t outputs, uint32_t states)
{
    table_random(&t, inputs, outputs, states);
    for (uint32_t at = 0; at < states; at++)
        t.out[at] = (uint16_t)(((uint32_t)1 << outputs) - 1u);
    for (uint32_t at = 0; at < states << inputs; at++)
        t.next[at] = (uint16_t)(states - 1u);
    lend(file, table_file(&t, file), 0);
    expect(agree_open(), t.out[0]);
    whole_table();
}

static void every_size(uint32_t inputs)
{
    static const uint32_t states[] = {1, 2, 3, 127, 128, 129, 254, 255, 256};
    for (uint32_t outputs = 0; outputs <= 16; outputs++) {
        for (size_t at = 0; at < sizeof states / sizeof *states; at++)
            one_file(inputs, outputs, states[at]);
        full_file(inputs, outputs, 1);
        full_file(inputs, outputs, 256);
    }
    for (uint32_t count = 1; count <= 256; count++)
        one_file(inputs, random_below(17), count);
}

static void every_place(uint32_t inputs, uint32_t outputs, uint32_t states)
{
    table_random(&t, inputs, outputs, states);
    size_t len = table_file(&t, file);
    for (size_t gap = 0; gap < 17; gap++) {
        lend(file, len, gap);
        expect(agree_open(), t.out[0]);
        whole_table();
        unchanged(file);
    }
    lend(file, len, most_gap(len));
    expect(agree_open(), t.out[0]);
    whole_table();
}

void sound_files(void)
{
    trying("a sound file");
    for (uint32_t inputs = 0; inputs <= 6; inputs++)
        every_size(inputs);
    trying("a sound file at odd addresses");
    every_place(1, 1, 2);
    every_place(2, 11, 70);
    every_place(6, 16, 256);
}
