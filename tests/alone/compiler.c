/* libcompiler.a alone: blink compiles to the bytes that firmware carries, and what is past them stays. */
#include "../../firmware/tables.h"
#include "tried.h"
#include "windnadel.h"

static const char source[] = "program blink; input GO; output LAMP; loop if GO then invert(LAMP) endif endloop endprog";
static uint8_t work[WINDNADEL_WORK(2)];
static uint8_t file[513];

int tried(void)
{
    const uint8_t *text = (const uint8_t *)source;
    uint64_t answer;
    for (size_t at = 0; at < sizeof work; at++)
        work[at] = 0xA5;
    file[512] = 0x5A;
    answer = windnadel_compile(text, sizeof source - 1, 2, work, sizeof work, file, sizeof file);
    if (windnadel_compile_refused(answer))
        return 1;
    if (windnadel_compile_states(answer) != 2 || windnadel_compile_blocks(answer) != 1)
        return 2;
    for (size_t at = 0; at < sizeof blink_file; at++)
        if (file[at] != blink_file[at])
            return 3;
    for (size_t at = 0; at < sizeof work; at++)
        if (work[at] != 0)
            return 4;
    if (file[512] != 0x5A)
        return 5;
    answer = windnadel_compile(text, 20, 2, work, sizeof work, file, sizeof file);
    return windnadel_compile_refusal(answer) != 5 || windnadel_compile_place(answer) != 20 ? 6 : 0;
}
