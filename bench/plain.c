#include "plain.h"

static uint32_t entries[256];

__attribute__((noinline)) uint32_t plain_flat(const uint16_t *next, size_t inputs, uint32_t state, uint32_t input)
{
    return next[((size_t)state << inputs) + input];
}

__attribute__((noinline)) uint32_t plain_bytes(const uint8_t *file, size_t inputs, uint32_t state, uint32_t input)
{
    uint32_t at = 4u + state * (2u + (2u << inputs)) + 2u + 2u * input;
    const uint8_t *word = file + at / 504u * 512u + 4u + at % 504u;
    return word[0] + 256u * word[1];
}

void plain_prepare(void)
{
    for (uint32_t byte = 0; byte < 256; byte++) {
        uint32_t rest = byte;
        for (int bit = 0; bit < 8; bit++)
            rest = (rest >> 1) ^ (rest & 1u ? 0xEDB88320u : 0u);
        entries[byte] = rest;
    }
}

__attribute__((noinline)) int plain_checks(const uint8_t *file, size_t len)
{
    int right = 1;
    for (const uint8_t *block = file; block < file + len; block += 512) {
        uint32_t rest = 0xFFFFFFFFu;
        for (int at = 0; at < 508; at++)
            rest = (rest >> 8) ^ entries[(rest ^ block[at]) & 255u];
        uint32_t stored = block[508] + 256u * block[509] + 65536u * block[510] + 16777216u * block[511];
        right &= ~rest == stored;
    }
    return right;
}
