/* The library's three calls against a second implementation, over sound and unsound files. */
#include "cases.h"
#include "compare.h"

int main(void)
{
    area_make();
    known_answers();
    sound_files();
    damaged_bytes();
    cut_and_lengthened();
    single_faults();
    bad_blocks();
    many_changes();
    print_counts();
    return 0;
}
