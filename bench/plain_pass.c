#include <stddef.h>
#include <stdint.h>

uint64_t plain_pass(const uint8_t *source, size_t len);

/* Every byte is looked at once, and the letters among them are counted. */
uint64_t plain_pass(const uint8_t *source, size_t len)
{
    uint64_t letters = 0;
    for (size_t at = 0; at < len; at++) {
        uint8_t lower = source[at] | 0x20;
        if (lower >= 'a' && lower <= 'z')
            letters += at ^ lower;
    }
    return letters;
}
