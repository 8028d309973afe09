#include "trials.h"

#include <string.h>

#include "lent.h"
#include "windnadel.h"

struct known {
    const char *source;
    uint32_t room;
    uint32_t states; /* 0: refused */
    uint32_t refusal;
    uint32_t place;
};

#define BLINK "program blink; input GO; output LAMP; loop if GO then invert(LAMP) endif endloop endprog"

static const struct known table[] = {
    {BLINK, 256, 2, 0, 0},
    {BLINK, 0, 0, 1, 0},
    {BLINK, 257, 0, 1, 0},
    {"program p; skip; skip endprog", 2, 0, 11, 0},
    {"program p; skip; skip endprog", 3, 3, 0, 0},
    {"program p; loop skip endloop endprog", 256, 1, 0, 0},
    {"program p; delay 3 endprog", 256, 4, 0, 0},
    {"program p; delay 0 endprog", 256, 2, 0, 0},
    {"program p; integer x[16]; x := x * 32768 endprog", 256, 2, 0, 0},
    {"program p; integer x[16]; x := x * 32769 endprog", 256, 0, 10, 33},
};

/* Number 0 of 1; 1 input, 1 output, 2 states; outputs and next states of each; zeros; check. */
static const uint8_t blink[512] = {
    0x00, 0x00, 0x01, 0x00,
    0x01, 0x01, 0x02, 0x00, 0x00, 0x00, 0x00, 0x00, 0x01, 0x00, 0x01, 0x00, 0x01, 0x00, 0x00, 0x00,
    [508] = 0x0C, 0x43, 0x25, 0xFF,
};

static struct trial lent(const uint8_t *source, size_t length, uint32_t room)
{
    const struct trial t = {source, length, room, WINDNADEL_WORK(256), WINDNADEL_LARGEST_FILE};
    return t;
}

static void try_known(const struct known *k)
{
    const struct trial t = lent((const uint8_t *)k->source, strlen(k->source), k->room);
    const struct ended e = compiled(&t);
    if (e.states != k->states || e.refusal != k->refusal || e.place != k->place) {
        failed(&t, "a trial of the document");
    }
}

/* "Source 8,193 bytes: 3", and 8,192 pass: blanks behind the end count. */
static void try_long(void)
{
    static uint8_t source[8193];
    memset(source, ' ', sizeof source);
    memcpy(source, BLINK, strlen(BLINK));
    struct trial t = lent(source, 8192, 256);
    if (compiled(&t).states != 2) {
        failed(&t, "8,192 bytes");
    }
    t.source_length = 8193;
    if (compiled(&t).refusal != 3) {
        failed(&t, "8,193 bytes");
    }
}

void try_document(void)
{
    const struct trial t = lent((const uint8_t *)BLINK, strlen(BLINK), 256);
    for (size_t i = 0; i < sizeof table / sizeof table[0]; i++) {
        try_known(&table[i]);
    }
    try_long();
    if (compiled(&t).blocks != 1 || memcmp(file_lent(), blink, sizeof blink) != 0) {
        failed(&t, "blink's bytes");
    }
}
