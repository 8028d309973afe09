/* All archives in one program: what compiles is opened, written as KISS text and read back, never leaving memory. */
#include "tried.h"
#include "windnadel.h"

static const char source[] = "program p; input GO; output LAMP; loop if GO then invert(LAMP) endif endloop endprog";
static uint8_t work[WINDNADEL_WORK(WINDNADEL_LARGEST_ROOM)];
static uint8_t file[WINDNADEL_LARGEST_FILE];
static uint8_t text[128];
static uint8_t back[512];

int tried(void)
{
    uint64_t answer = windnadel_compile((const uint8_t *)source, sizeof source - 1, WINDNADEL_LARGEST_ROOM, work,
                                        sizeof work, file, sizeof file);
    size_t length = (size_t)windnadel_compile_blocks(answer) * WINDNADEL_BLOCK;
    if (windnadel_compile_refused(answer) || windnadel_open(file, length) != 0)
        return 1;
    if (windnadel_step(file, length, 0, 1) != 1 || windnadel_outputs(file, length, 1) != 1)
        return 2;
    answer = windnadel_kiss_write(file, length, text, sizeof text);
    if (answer >> 32 != 0 || windnadel_kiss_read(text, (size_t)answer, back, sizeof back) != 1)
        return 3;
    for (size_t at = 0; at < length; at++)
        if (back[at] != file[at])
            return 4;
    return 0;
}
