#include "plain_kiss.h"

enum { BLOCK = 512, PIECE = 504 };

static uint8_t *digits(uint8_t *to, uint32_t value)
{
    if (value >= 10)
        to = digits(to, value / 10);
    *to = (uint8_t)('0' + value % 10);
    return to + 1;
}

static uint8_t *words(uint8_t *to, const char *text)
{
    while (*text)
        *to++ = (uint8_t)*text++;
    return to;
}

static uint8_t *bits(uint8_t *to, uint32_t count, uint32_t value)
{
    for (uint32_t bit = 0; bit < count; bit++)
        *to++ = (uint8_t)('0' + (value >> bit & 1));
    return to;
}

static uint8_t *line(uint8_t *to, const char *key, uint32_t value)
{
    return words(digits(words(to, key), value), "\n");
}

static uint32_t word(const uint8_t *file, size_t at)
{
    const uint8_t *here = file + at / PIECE * BLOCK + 4 + at % PIECE;
    return here[0] + 256u * here[1];
}

uint64_t plain_kiss_write(const uint8_t *file, size_t len, uint8_t *text, size_t text_len)
{
    const uint32_t k = file[4], o = file[5], n = word(file, 2), fan = 1u << k;
    size_t at = 4;
    uint8_t *to = line(line(line(line(text, ".i ", k), ".o ", o), ".p ", n * fan), ".s ", n);
    (void)len, (void)text_len;
    to = words(to, ".r s0\n");
    for (uint32_t state = 0; state < n; state++) {
        const uint32_t out = word(file, at);
        at += 2;
        for (uint32_t input = 0; input < fan; input++, at += 2) {
            to = words(digits(words(bits(to, k, input), " s"), state), " s");
            to = words(bits(words(digits(to, word(file, at)), " "), o, out), "\n");
        }
    }
    return (uint64_t)(words(to, ".e\n") - text);
}

static uint32_t number(const uint8_t **from)
{
    uint32_t value = 0;
    for (; **from >= '0' && **from <= '9'; (*from)++)
        value = 10 * value + (uint32_t)(**from - '0');
    return value;
}

static size_t put(uint8_t *file, size_t at, uint32_t value)
{
    uint8_t *here = file + at / PIECE * BLOCK + 4 + at % PIECE;
    here[0] = (uint8_t)value;
    here[1] = (uint8_t)(value >> 8);
    return at + 2;
}

static uint32_t size(const uint8_t **from)
{
    *from += 3;
    const uint32_t value = number(from);
    ++*from;
    return value;
}

uint64_t plain_kiss_read(const uint8_t *text, size_t text_len, uint8_t *file, size_t file_len)
{
    const uint8_t *from = text;
    const uint32_t k = size(&from), o = size(&from), rows = size(&from), n = size(&from), fan = 1u << k;
    size_t at = put(file, put(file, 0, k + 256 * o), n);
    (void)text_len, (void)file_len;
    from += 6;
    for (uint32_t row = 0; row < rows; row++) {
        from += k + 2;
        number(&from);
        from += 2;
        const uint32_t next = number(&from);
        from++;
        if (row % fan == 0) {
            uint32_t out = 0;
            for (uint32_t bit = 0; bit < o; bit++)
                out |= (uint32_t)(from[bit] - '0') << bit;
            at = put(file, at, out);
        }
        at = put(file, at, next);
        from += o + 1;
    }
    return at;
}
