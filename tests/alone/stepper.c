/* libstepper.a alone. */
#include "../../firmware/tables.h"
#include "tried.h"
#include "windnadel.h"

int tried(void)
{
    if (windnadel_open(blink_file, sizeof blink_file) != 0)
        return 1;
    if (windnadel_step(blink_file, sizeof blink_file, 0, 1) != 1)
        return 2;
    if (windnadel_outputs(blink_file, sizeof blink_file, 1) != 1)
        return 3;
    if (windnadel_step(blink_file, sizeof blink_file, 1, 2) != WINDNADEL_REFUSED + WINDNADEL_NOT_IN_TABLE)
        return 4;
    return windnadel_open_refusal(windnadel_open(blink_file, 511)) != WINDNADEL_BAD_LENGTH ? 5 : 0;
}
