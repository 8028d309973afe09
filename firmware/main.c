/* Firmware in small: opens a table file, steps it over the inputs, and keeps only a state number. */
#include <inttypes.h>
#include <stdio.h>
#include <string.h>

#include "tables.h"
#include "windnadel.h"

/* Is the file sound? Says its first outputs, or what was refused and where. */
static int opened(const char *name, const uint8_t *file, size_t len)
{
    uint64_t answer = windnadel_open(file, len);
    if (windnadel_open_refused(answer)) {
        printf("%s: refused %" PRIu32 " at %" PRIu32 "\n", name,
               windnadel_open_refusal(answer), windnadel_open_place(answer));
        return 0;
    }
    printf("%s: open, outputs %" PRIu32 "\n", name, windnadel_open_outputs(answer));
    return 1;
}

/* One clock: the next state, whose outputs are then never refused, or the old one where the step is. */
static uint32_t clocked(const char *name, const uint8_t *file, size_t len, uint32_t state, uint32_t input)
{
    uint32_t next = windnadel_step(file, len, state, input);
    if (windnadel_refused(next)) {
        printf("%s: input %" PRIu32 " refused %" PRIu32 ", state %" PRIu32 " stays\n",
               name, input, windnadel_refusal(next), state);
        return state;
    }
    printf("%s: input %" PRIu32 ", state %" PRIu32 ", outputs %" PRIu32 "\n",
           name, input, next, windnadel_outputs(file, len, next));
    return next;
}

static void run(const char *name, const uint8_t *file, size_t len, const uint32_t *inputs, size_t count)
{
    uint32_t state = 0;
    if (!opened(name, file, len))
        return;
    for (size_t at = 0; at < count; at++)
        state = clocked(name, file, len, state, inputs[at]);
}

/* The mast's inputs by bits, as examples/mast.csml declares them. */
enum { FROST = 1, METER = 8, SENT = 16 };

int main(void)
{
    static const uint32_t go[] = {0, 1, 0, 1, 1, 2, 0};
    /* A frost alarm while the neighbour's meter is held high; bit 2 of the outputs, TAKE-METER, waits until it is sent. */
    static const uint32_t frost[] = {FROST | METER, METER, METER, METER, 32, SENT | METER, METER, METER};
    uint8_t damaged[sizeof blink_file];
    run("blink", blink_file, sizeof blink_file, go, sizeof go / sizeof *go);
    run("mast", mast_file, sizeof mast_file, frost, sizeof frost / sizeof *frost);
    run("cut", blink_file, sizeof blink_file - 1, go, 1);
    memcpy(damaged, blink_file, sizeof damaged);
    damaged[16] ^= 1;
    run("damaged", damaged, sizeof damaged, go, 1);
    return 0;
}
