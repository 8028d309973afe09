/* The stack of writing and reading KISS text stays within what the header says. */
#include "../../firmware/tables.h"
#include "used.h"
#include "windnadel.h"

static uint8_t text[WINDNADEL_LONGEST_TEXT];
static uint8_t file[WINDNADEL_LARGEST_FILE];
static volatile uint64_t length;

static void written(void)
{
    length = windnadel_kiss_write(mast_file, sizeof mast_file, text, sizeof text);
}

static void read_back(void)
{
    length = windnadel_kiss_read(text, (size_t)length, file, sizeof file);
}

int main(void)
{
    int failed = above("kiss_write", written, 1600);
    written();
    return failed | above("kiss_read", read_back, 6144);
}
