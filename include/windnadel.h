/*
 * Windnadel: a controller run from a table file, and the compiler that makes one.
 *
 * A table file holds 1 to 67 blocks of 512 bytes. Firmware keeps it as plain
 * bytes, in flash or in memory, and keeps one number, the state:
 *
 *     windnadel_open      once, before the first step; the state is then 0
 *     windnadel_step      once a clock, with that clock's inputs
 *     windnadel_outputs   the outputs that belong to a state
 *
 * and on the machine where programs are written:
 *
 *     windnadel_compile      a source into a table file
 *     windnadel_kiss_write   a table file into KISS2 text
 *     windnadel_kiss_read    such a text back into its table file
 *
 * Inputs and outputs are numbers by bits: the first declared is bit 0.
 *
 * All calls:
 * - answer for any bytes, any length and any numbers: nothing is required of
 *   what is handed in, but that it can be read, and written where it is lent;
 * - take a length of 0 too: that pointer is then not used and may be NULL;
 * - keep nothing between calls and wait for nothing, so any thread or interrupt
 *   may call them at any time, as long as nobody changes what is lent meanwhile.
 * Open, step and outputs read file[0] to file[len - 1] at most and write
 * nothing, so the file may lie in read-only memory; it needs no alignment.
 *
 * Building. The calls are proved code for x86-64 with the System V convention;
 * there is no other target today. Each archive is made by one command, with
 * proof, in the folder target/staticlib:
 *
 *     tools/archive stepper     libstepper.a: open, step, outputs
 *     tools/archive compiler    libcompiler.a: compile
 *     tools/archive kiss_write  libkiss_write.a: writing KISS text
 *     tools/archive kiss_read   libkiss_read.a: reading KISS text
 *
 * Linking. An archive is one object and stands alone or beside the others, in
 * any order. It needs no C library: libstepper.a and libkiss_write.a ask for
 * nothing, the two others for memcpy and memset at most. For example
 *
 *     gcc -std=c99 -Iinclude main.c table.c target/staticlib/libstepper.a
 *
 * Sizes. libstepper.a has 2.3 KB of code and 1 KB of constants, and no data;
 * open takes less than 1.2 KB of stack, step and outputs less than 64 bytes.
 * libcompiler.a has 80 KB of code and constants, and no data; compile recurses as
 * deep as a source nests, 32 levels at most, and as deep as its calls go; it takes
 * less than 192 KB of stack for a source without calls, and less than 640 KB for
 * the longest chain of calls that a source can hold.
 * libkiss_write.a and libkiss_read.a have 4 and 7 KB of code and constants, and no
 * data; writing takes less than 1.6 KB of stack, reading less than 6 KB.
 */
#ifndef WINDNADEL_H
#define WINDNADEL_H

#include <stddef.h>
#include <stdint.h>

#ifdef __cplusplus
extern "C" {
#endif

/* Answers of step and outputs from here on are refusals. */
#define WINDNADEL_REFUSED 65536u

/* What is broken in a table file: its length, a block's number or count of blocks, a block's check, or all else. */
#define WINDNADEL_BAD_LENGTH 21u
#define WINDNADEL_BAD_NUMBER 22u
#define WINDNADEL_BAD_CHECK 23u
#define WINDNADEL_BAD_CONTENT 24u

/* Refusal of step and outputs: the state or the input is not in the table. */
#define WINDNADEL_NOT_IN_TABLE 14u

/* Bytes in a block, and in the largest file. */
#define WINDNADEL_BLOCK 512u
#define WINDNADEL_LARGEST_FILE (67u * WINDNADEL_BLOCK)

/* The longest source, the largest room, and the work area that a room asks for. */
#define WINDNADEL_LONGEST_SOURCE 8192u
#define WINDNADEL_LARGEST_ROOM 256u
#define WINDNADEL_WORK(room) (32768u + 64u * (room))

/*
 * Compiles a source. On success it writes the table file's blocks to file[0] on,
 * leaves what is past them, and answers states + 65,536 * blocks. Otherwise it
 * answers refusal * 2^32 + place and leaves the whole file buffer alone; the
 * lowest refusal that applies is told, and of those with one number the
 * earliest place, an offset into the source:
 * - 1: room is not 1 to 256;           - 2: work_len is below 32,768 + 64 * room;
 * - 3: source_len is above 8,192;      - 4: no word starts here, or it is too large;
 * - 5: no program goes on so;          - 6: a name unknown or declared again, or a
 *                                           call that can't be expanded;
 * - 7: a wrong kind;                   - 8: exit or break with nothing to leave;
 * - 9: a size is passed;               - 10: a number could grow too large;
 * - 11: more states than the room;     - 12: file_len is below the file's length.
 * The place is 0 for 1, 2, 3, 11 and 12; of what is wrong in a procedure's body it
 * is the call in the program's own list. `windnadel explain N` says more.
 * What the work area holds before does not matter. Refusals 1 and 2 leave it
 * alone; every other end leaves all of it, work_len bytes, zero. The three
 * areas must not overlap. A room of 256 and buffers of WINDNADEL_WORK(256) and
 * WINDNADEL_LARGEST_FILE bytes are enough for every program that compiles; a
 * larger room never changes a file.
 */
uint64_t windnadel_compile(const uint8_t *source, size_t source_len, uint32_t room,
                           uint8_t *work, size_t work_len, uint8_t *file, size_t file_len);

/* Is this answer of compile a refusal? */
static inline int windnadel_compile_refused(uint64_t answer)
{
    return (answer >> 32) != 0u;
}

/* The refusal in an answer of compile; 0 where it is none. */
static inline uint32_t windnadel_compile_refusal(uint64_t answer)
{
    return (uint32_t)(answer >> 32);
}

/* The place in an answer of compile that is a refusal: an offset into the source, or 0. */
static inline uint32_t windnadel_compile_place(uint64_t answer)
{
    return (uint32_t)(answer & 0xFFFFFFFFu);
}

/* The states and the blocks in an answer of compile that is no refusal; the file has 512 bytes a block. */
static inline uint32_t windnadel_compile_states(uint64_t answer)
{
    return (uint32_t)(answer & 0xFFFFu);
}

static inline uint32_t windnadel_compile_blocks(uint64_t answer)
{
    return (uint32_t)(answer >> 16) & 0xFFFFu;
}

/* Refusals of KISS text: the buffer is too short; no table has such a text. */
#define WINDNADEL_SHORT_BUFFER 12u
#define WINDNADEL_NO_TEXT 15u

/* Enough for every KISS text: 34 bytes for each of 16,384 rows, and 36 more. */
#define WINDNADEL_LONGEST_TEXT 557092u

/*
 * Writes the KISS2 text of a table file to text[0] on, leaves what is past it,
 * and answers the text's length. Otherwise it answers refusal * 2^32 + place and
 * leaves the whole text buffer alone. The first of these that holds decides:
 * - the file is not sound: refusal and place as windnadel_open has them;
 * - it has no inputs or no outputs: 15 at 0;
 * - text_len is below the text's length: 12 at 0.
 */
uint64_t windnadel_kiss_write(const uint8_t *file, size_t len, uint8_t *text, size_t text_len);

/*
 * Reads a text that windnadel_kiss_write can write, and no other, writes the
 * table file that it is the text of to file[0] on, leaves what is past it, and
 * answers the file's blocks. Otherwise it answers refusal * 2^32 + place and
 * leaves the whole file buffer alone. The first of these that holds decides:
 * - no table has this text: 15 at the first byte with which no text goes on so,
 *   or at text_len where the text stops early;
 * - file_len is below the file's length: 12 at 0.
 */
uint64_t windnadel_kiss_read(const uint8_t *text, size_t text_len, uint8_t *file, size_t file_len);

/*
 * Reads the whole file and answers the outputs of state 0 (0 to 65,535) where
 * it is sound. Otherwise it answers refusal * 2^32 + place. The first of these
 * that holds decides:
 * - 21: len is 0, not a multiple of 512, or above 67 * 512: place 0;
 * - a block has a wrong number or a wrong count of blocks (22), or else a wrong
 *   check (23): the first such block decides, and the place is its position,
 *   counted from 0;
 * - 24: more than 6 inputs, more than 16 outputs, or a count of states that is
 *   not 1 to 256; more or fewer blocks than these sizes call for; in some state
 *   an output bit that the file has no output for; a byte that is not zero after
 *   the table's end; a next state that is not in the table: place 0.
 * All else is accepted. Outputs are below 65,536 and a refusal is at least
 * 21 * 2^32, so the two can't be confused; windnadel_open_refused tells them apart.
 */
uint64_t windnadel_open(const uint8_t *file, size_t len);

/*
 * Answers the next state (0 to 255) for a state and the inputs of one clock, or
 * 65,536 + refusal. The first of these that holds decides:
 * - 65,557 (refusal 21): len is 0, not a multiple of 512, or above 67 * 512;
 * - 65,560 (refusal 24): more than 6 inputs, more than 16 outputs, or a count of
 *   states that is not 1 to 256; or len is not exactly the length that these
 *   sizes call for;
 * - 65,550 (refusal 14): the file has no such state, or no such input: the input
 *   is 2^inputs or more;
 * - 65,560 (refusal 24): the next state found is not in the table, or its
 *   outputs have a bit that the file has no output for.
 * The blocks' checks are not computed again: windnadel_open did that. From a
 * file that it accepted, a state in the table and an input below 2^inputs are
 * never refused. After a refusal firmware goes on with the state it has.
 */
uint32_t windnadel_step(const uint8_t *file, size_t len, uint32_t state, uint32_t input);

/*
 * Answers the outputs of a state (0 to 65,535), or 65,536 + refusal. The first
 * of these that holds decides:
 * - 65,557 and 65,560 (refusals 21 and 24): the length and then the sizes, as for
 *   windnadel_step;
 * - 65,550 (refusal 14): the file has no such state;
 * - 65,560 (refusal 24): the outputs have a bit that the file has no output for.
 */
uint32_t windnadel_outputs(const uint8_t *file, size_t len, uint32_t state);

/* Is this answer of step or outputs a refusal? */
static inline int windnadel_refused(uint32_t answer)
{
    return answer >= WINDNADEL_REFUSED;
}

/* The refusal in an answer of step or outputs; 0 where it is none. */
static inline uint32_t windnadel_refusal(uint32_t answer)
{
    return answer >= WINDNADEL_REFUSED ? answer - WINDNADEL_REFUSED : 0u;
}

/* Is this answer of open a refusal? */
static inline int windnadel_open_refused(uint64_t answer)
{
    return (answer >> 32) != 0u;
}

/* The refusal in an answer of open; 0 where it is none. */
static inline uint32_t windnadel_open_refusal(uint64_t answer)
{
    return (uint32_t)(answer >> 32);
}

/* The place in an answer of open that is a refusal: a block's position, or 0. */
static inline uint32_t windnadel_open_place(uint64_t answer)
{
    return (uint32_t)(answer & 0xFFFFFFFFu);
}

/* The outputs of state 0 in an answer of open that is no refusal. */
static inline uint32_t windnadel_open_outputs(uint64_t answer)
{
    return (uint32_t)(answer & 0xFFFFu);
}

#ifdef __cplusplus
}
#endif

#endif
