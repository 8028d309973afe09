/* Both archives in one program: what compiles is opened and stepped, never leaving memory. */
#include "tried.h"
#include "windnadel.h"

static const char source[] = "program p; input GO; output LAMP; loop if GO then invert(LAMP) endif endloop endprog";
static uint8_t work[WINDNADEL_WORK(WINDNADEL_LARGEST_ROOM)];
static uint8_t file[WINDNADEL_LARGEST_FILE];

int tried(void)
{
    uint64_t answer = windnadel_compile((const uint8_t *)source, sizeof source - 1, WINDNADEL_LARGEST_ROOM, work,
                                        sizeof work, file, sizeof file);
    size_t length = (size_t)windnadel_compile_blocks(answer) * WINDNADEL_BLOCK;
    if (windnadel_compile_refused(answer) || windnadel_open(file, length) != 0)
        return 1;
    if (windnadel_step(file, length, 0, 1) != 1)
        return 2;
    return windnadel_outputs(file, length, 1) != 1 ? 3 : 0;
}
