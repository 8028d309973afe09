#include "table.h"

#include <string.h>

#include "random.h"

static size_t fan(const struct table *t)
{
    return (size_t)1 << t->inputs;
}

void table_random(struct table *t, uint32_t inputs, uint32_t outputs, uint32_t states)
{
    t->inputs = inputs;
    t->outputs = outputs;
    t->states = states;
    for (size_t at = 0; at < states; at++)
        t->out[at] = (uint16_t)(random_word() & (((uint32_t)1 << (outputs < 16 ? outputs : 16)) - 1u));
    for (size_t at = 0; at < states * fan(t); at++)
        t->next[at] = (uint16_t)random_below(states);
}

size_t table_stream(const struct table *t)
{
    return 4 + t->states * (2 + 2 * fan(t));
}

size_t table_out_at(const struct table *t, uint32_t state)
{
    return 4 + state * (2 + 2 * fan(t));
}

size_t table_next_at(const struct table *t, uint32_t state, uint32_t input)
{
    return table_out_at(t, state) + 2 + 2 * (size_t)input;
}

uint32_t table_step(const struct table *t, uint32_t state, uint32_t input)
{
    if (state >= t->states || input >= fan(t))
        return 65550;
    uint32_t next = t->next[state * fan(t) + input];
    if (next >= t->states || (uint32_t)t->out[next] >> t->outputs != 0)
        return 65560;
    return next;
}

uint32_t table_outputs(const struct table *t, uint32_t state)
{
    if (state >= t->states)
        return 65550;
    return (uint32_t)t->out[state] >> t->outputs != 0 ? 65560 : t->out[state];
}

void put_word(uint8_t *file, size_t place, uint32_t value)
{
    file[place] = (uint8_t)(value & 255u);
    file[place + 1] = (uint8_t)(value >> 8 & 255u);
}

void seal(uint8_t *file, size_t block)
{
    uint8_t *start = file + block * BLOCK;
    uint32_t check = second_check(start, CHECKED);
    put_word(start, CHECKED, check & 65535u);
    put_word(start, CHECKED + 2, check >> 16);
}

void seal_all(uint8_t *file, size_t len)
{
    for (size_t block = 0; block < len / BLOCK; block++)
        seal(file, block);
}

void number_all(uint8_t *file, size_t len)
{
    for (size_t block = 0; block < len / BLOCK; block++) {
        put_word(file, block * BLOCK, (uint32_t)block);
        put_word(file, block * BLOCK + 2, (uint32_t)(len / BLOCK));
    }
    seal_all(file, len);
}

size_t table_file(const struct table *t, uint8_t *file)
{
    size_t len = (table_stream(t) + PIECE - 1) / PIECE * BLOCK;
    memset(file, 0, len);
    file[4] = (uint8_t)t->inputs;
    file[5] = (uint8_t)t->outputs;
    put_word(file, 6, t->states);
    for (uint32_t state = 0; state < t->states; state++) {
        put_word(file, second_place(table_out_at(t, state)), t->out[state]);
        for (uint32_t input = 0; input < fan(t); input++)
            put_word(file, second_place(table_next_at(t, state, input)), t->next[state * fan(t) + input]);
    }
    number_all(file, len);
    return len;
}
