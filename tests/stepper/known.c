/* Answers that the rules print, and that follow from them by hand. */
#include <string.h>

#include "cases.h"
#include "compare.h"
#include "second.h"
#include "windnadel.h"

/* Number 0 of 1; 1 input, 1 output, 2 states; outputs and next states of each; zeros; check. */
static const uint8_t blink[BLOCK] = {
    0x00, 0x00, 0x01, 0x00,
    0x01, 0x01, 0x02, 0x00, 0x00, 0x00, 0x00, 0x00, 0x01, 0x00, 0x01, 0x00, 0x01, 0x00, 0x00, 0x00,
    [508] = 0x0C, 0x43, 0x25, 0xFF,
};

static void blink_runs(void)
{
    lend(blink, BLOCK, 0);
    expect(agree_open(), 0);
    expect(agree_outputs(0), 0);
    expect(agree_outputs(1), 1);
    expect(agree_outputs(2), 65550);
    expect(agree_step(0, 0), 0);
    expect(agree_step(0, 1), 1);
    expect(agree_step(1, 0), 1);
    expect(agree_step(1, 1), 0);
    expect(agree_step(1, 2), 65550);
    expect(agree_step(0, 2), 65550);
    expect(agree_step(2, 0), 65550);
    expect(agree_step(0xFFFFFFFFu, 0xFFFFFFFFu), 65550);
}

static void short_file(size_t len)
{
    lend(blink, len, 0);
    expect(agree_open(), BROKEN(BAD_LENGTH, 0));
    expect(agree_step(0, 0), 65557);
    expect(agree_step(1, 2), 65557);
    expect(agree_outputs(0), 65557);
    expect(agree_outputs(2), 65557);
}

static void helpers_decode(void)
{
    expect((uint64_t)windnadel_refused(65535), 0);
    expect((uint64_t)windnadel_refused(65536), 1);
    expect(windnadel_refusal(255), 0);
    expect(windnadel_refusal(65550), WINDNADEL_NOT_IN_TABLE);
    expect((uint64_t)windnadel_open_refused(65535), 0);
    expect((uint64_t)windnadel_open_refused(BROKEN(21, 0)), 1);
    expect(windnadel_open_refusal(65535), 0);
    expect(windnadel_open_refusal(BROKEN(21, 0)), WINDNADEL_BAD_LENGTH);
    expect(windnadel_open_refusal(BROKEN(22, 66)), WINDNADEL_BAD_NUMBER);
    expect(windnadel_open_refusal(BROKEN(23, 66)), WINDNADEL_BAD_CHECK);
    expect(windnadel_open_refusal(BROKEN(24, 0)), WINDNADEL_BAD_CONTENT);
    expect(windnadel_open_place(BROKEN(23, 66)), 66);
    expect(windnadel_open_outputs(65535), 65535);
}

static void no_file(void)
{
    lend_here(NULL, 0);
    expect(agree_open(), BROKEN(BAD_LENGTH, 0));
    expect(agree_step(0, 0), 65557);
    expect(agree_outputs(0), 65557);
}

/* One byte of blink changed, by number and value: what open and a step from state 0 with input 1 then answer. */
static void changed(size_t at, uint8_t value, uint64_t opened, uint32_t stepped)
{
    uint8_t file[BLOCK];
    memcpy(file, blink, BLOCK);
    file[at] = value;
    lend(file, BLOCK, 0);
    expect(agree_open(), opened);
    expect(agree_step(0, 1), stepped);
}

static void blink_broken(void)
{
    changed(0, 1, BROKEN(BAD_NUMBER, 0), 1);
    changed(2, 2, BROKEN(BAD_NUMBER, 0), 1);
    changed(100, 1, BROKEN(BAD_CHECK, 0), 1);
    changed(508, 0, BROKEN(BAD_CHECK, 0), 1);
    changed(4, 7, BROKEN(BAD_CHECK, 0), 65560);
    changed(6, 200, BROKEN(BAD_CHECK, 0), 65560);
    changed(12, 2, BROKEN(BAD_CHECK, 0), 65560);
    changed(14, 3, BROKEN(BAD_CHECK, 0), 65560);
}

void known_answers(void)
{
    trying("blink by hand");
    expect(second_check((const uint8_t *)"123456789", 9), 0xCBF43926u);
    blink_runs();
    trying("blink cut short");
    short_file(0);
    short_file(8);
    short_file(511);
    trying("blink broken by hand");
    blink_broken();
    trying("no file");
    no_file();
    trying("the header's helpers");
    helpers_decode();
}
