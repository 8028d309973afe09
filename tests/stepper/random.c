#include "random.h"

uint32_t random_word(void)
{
    static uint64_t seed = 0x9E3779B97F4A7C15u;
    seed ^= seed << 13;
    seed ^= seed >> 7;
    seed ^= seed << 17;
    return (uint32_t)(seed >> 32);
}

uint32_t random_below(uint32_t limit)
{
    return random_word() % limit;
}
