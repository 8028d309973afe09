/* The stack of open, step and outputs stays within what the header says. */
#include "../../firmware/tables.h"
#include "used.h"
#include "windnadel.h"

static volatile uint64_t kept;

static void opened(void)
{
    kept = windnadel_open(mast_file, sizeof mast_file);
}

static void stepped(void)
{
    kept = windnadel_step(mast_file, sizeof mast_file, 227, 31);
}

static void asked(void)
{
    kept = windnadel_outputs(mast_file, sizeof mast_file, 227);
}

int main(void)
{
    return above("open", opened, 1200) | above("step", stepped, 64) | above("outputs", asked, 64);
}
