#include "second.h"

struct sizes {
    uint32_t inputs, outputs, states;
};

uint32_t second_check(const uint8_t *bytes, size_t count)
{
    uint32_t rest = 0xFFFFFFFFu;
    for (size_t at = 0; at < count; at++) {
        for (int bit = 0; bit < 8; bit++) {
            uint32_t odd = (rest ^ ((uint32_t)bytes[at] >> bit)) & 1u;
            rest = (rest >> 1) ^ (odd ? 0xEDB88320u : 0u);
        }
    }
    return ~rest;
}

size_t second_place(size_t at)
{
    return at / PIECE * BLOCK + 4 + at % PIECE;
}

static uint32_t low_first(const uint8_t *bytes, int count)
{
    uint32_t value = 0;
    while (count-- > 0)
        value = value * 256u + bytes[count];
    return value;
}

static uint32_t word(const uint8_t *file, size_t at)
{
    return file[second_place(at)] + 256u * file[second_place(at + 1)];
}

static size_t row(const struct sizes *z)
{
    return 2u + 2u * ((size_t)1 << z->inputs);
}

static size_t stream_length(const struct sizes *z)
{
    return 4u + z->states * row(z);
}

static uint32_t out_of(const uint8_t *file, const struct sizes *z, uint32_t state)
{
    return word(file, 4u + state * row(z));
}

static uint32_t next_of(const uint8_t *file, const struct sizes *z, uint32_t state, uint32_t input)
{
    return word(file, 4u + state * row(z) + 2u + 2u * (size_t)input);
}

static int spare(const struct sizes *z, uint32_t out)
{
    return out >= (uint32_t)1 << z->outputs;
}

/* The sizes are within their limits and call for exactly this length. */
static int shaped(const uint8_t *file, size_t len, struct sizes *z)
{
    z->inputs = file[4];
    z->outputs = file[5];
    z->states = low_first(file + 6, 2);
    if (z->inputs > 6 || z->outputs > 16 || z->states < 1 || z->states > 256)
        return 0;
    return len == (stream_length(z) + PIECE - 1) / PIECE * BLOCK;
}

/* Zero, not whole blocks, or too many. */
static int bad_length(size_t len)
{
    return len == 0 || len % BLOCK != 0 || len / BLOCK > MOST_BLOCKS;
}

/* What is broken in a block, or 0. */
static int block_fault(const uint8_t *file, size_t number, size_t total)
{
    const uint8_t *block = file + number * BLOCK;
    if (low_first(block, 2) != number || low_first(block + 2, 2) != total)
        return BAD_NUMBER;
    return low_first(block + CHECKED, 4) != second_check(block, CHECKED) ? BAD_CHECK : 0;
}

static int state_right(const uint8_t *file, const struct sizes *z, uint32_t state)
{
    if (spare(z, out_of(file, z, state)))
        return 0;
    for (uint32_t input = 0; input < (uint32_t)1 << z->inputs; input++)
        if (next_of(file, z, state, input) >= z->states)
            return 0;
    return 1;
}

static int content_right(const uint8_t *file, size_t len)
{
    struct sizes z;
    if (!shaped(file, len, &z))
        return 0;
    for (uint32_t state = 0; state < z.states; state++)
        if (!state_right(file, &z, state))
            return 0;
    for (size_t at = stream_length(&z); at < len / BLOCK * PIECE; at++)
        if (file[second_place(at)] != 0)
            return 0;
    return 1;
}

uint64_t second_open(const uint8_t *file, size_t len)
{
    if (bad_length(len))
        return (uint64_t)BAD_LENGTH << 32;
    for (size_t number = 0; number < len / BLOCK; number++) {
        int fault = block_fault(file, number, len / BLOCK);
        if (fault != 0)
            return ((uint64_t)fault << 32) + number;
    }
    if (!content_right(file, len))
        return (uint64_t)BAD_CONTENT << 32;
    return word(file, 4);
}

uint32_t second_step(const uint8_t *file, size_t len, uint32_t state, uint32_t input)
{
    struct sizes z;
    if (bad_length(len))
        return 65536u + BAD_LENGTH;
    if (!shaped(file, len, &z))
        return 65536u + BAD_CONTENT;
    if (state >= z.states || input >= (uint32_t)1 << z.inputs)
        return 65536u + 14u;
    uint32_t next = next_of(file, &z, state, input);
    if (next >= z.states || spare(&z, out_of(file, &z, next)))
        return 65536u + BAD_CONTENT;
    return next;
}

uint32_t second_outputs(const uint8_t *file, size_t len, uint32_t state)
{
    struct sizes z;
    if (bad_length(len))
        return 65536u + BAD_LENGTH;
    if (!shaped(file, len, &z))
        return 65536u + BAD_CONTENT;
    if (state >= z.states)
        return 65536u + 14u;
    uint32_t out = out_of(file, &z, state);
    return spare(&z, out) ? 65536u + BAD_CONTENT : out;
}
