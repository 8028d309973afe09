/* libkiss_write.a and libkiss_read.a alone: blink's file is the document's text, and that text blink's file. */
#include "../../firmware/tables.h"
#include "tried.h"
#include "windnadel.h"

static const char blink[] = ".i 1\n.o 1\n.p 4\n.s 2\n.r s0\n0 s0 s0 0\n1 s0 s1 0\n0 s1 s1 1\n1 s1 s0 1\n.e\n";
enum { LENGTH = sizeof blink - 1 };
static uint8_t text[LENGTH + 1];
static uint8_t file[513];

int tried(void)
{
    text[LENGTH] = 0x5A;
    if (windnadel_kiss_write(blink_file, sizeof blink_file, text, sizeof text) != LENGTH)
        return 1;
    for (size_t at = 0; at < LENGTH; at++)
        if (text[at] != (uint8_t)blink[at])
            return 2;
    if (text[LENGTH] != 0x5A)
        return 3;
    file[512] = 0x5A;
    if (windnadel_kiss_read(text, LENGTH, file, sizeof file) != 1)
        return 4;
    for (size_t at = 0; at < sizeof blink_file; at++)
        if (file[at] != blink_file[at])
            return 5;
    if (file[512] != 0x5A)
        return 6;
    if (windnadel_kiss_write(blink_file, 511, text, 0) != (uint64_t)WINDNADEL_BAD_LENGTH << 32)
        return 7;
    if (windnadel_kiss_write(blink_file, sizeof blink_file, text, LENGTH - 1) != (uint64_t)WINDNADEL_SHORT_BUFFER << 32)
        return 8;
    return windnadel_kiss_read(text, 14, file, 0) != ((uint64_t)WINDNADEL_NO_TEXT << 32) + 14 ? 9 : 0;
}
