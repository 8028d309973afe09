#define _DEFAULT_SOURCE
#include "compare.h"

#include <inttypes.h>
#include <signal.h>
#include <stdio.h>
#include <stdlib.h>
#include <string.h>
#include <sys/mman.h>
#include <unistd.h>

#include "random.h"
#include "second.h"
#include "windnadel.h"

#define AREA ((size_t)65536)

static uint8_t *area;
static const uint8_t *lent;
static size_t lent_length;
static const char *tried = "nothing yet";
static unsigned long files, opens, steps, outputs;

static void must(int fine, const char *what)
{
    if (fine)
        return;
    perror(what);
    exit(1);
}

/* Also a call that reads or writes where it may not ends with status 1 and says where. */
static void stray(int signal)
{
    static const char text[] = "stepper: a call left the lent bytes: ";
    (void)signal;
    if (write(2, text, sizeof text - 1) >= 0 && write(2, tried, strlen(tried)) >= 0)
        (void)!write(2, "\n", 1);
    _exit(1);
}

void area_make(void)
{
    uint8_t *all = mmap(NULL, 3 * AREA, PROT_NONE, MAP_PRIVATE | MAP_ANONYMOUS, -1, 0);
    must(all != MAP_FAILED, "mmap");
    area = all + AREA;
    must(mprotect(area, AREA, PROT_READ | PROT_WRITE) == 0, "mprotect");
    must(signal(SIGSEGV, stray) != SIG_ERR && signal(SIGBUS, stray) != SIG_ERR, "signal");
}

void trying(const char *what)
{
    tried = what;
}

size_t most_gap(size_t len)
{
    return AREA - len;
}

void lend_here(const uint8_t *file, size_t len)
{
    lent = file;
    lent_length = len;
    files++;
}

void lend(const uint8_t *bytes, size_t len, size_t gap)
{
    uint8_t *file = area + (AREA - gap - len);
    must(mprotect(area, AREA, PROT_READ | PROT_WRITE) == 0, "mprotect");
    if (len > 0)
        memcpy(file, bytes, len);
    must(mprotect(area, AREA, PROT_READ) == 0, "mprotect");
    lend_here(file, len);
}

static void differ(const char *call, uint64_t library, uint64_t second)
{
    fprintf(stderr, "stepper: %s, file %lu of %zu bytes, %s: the library answers %" PRIu64
            ", not %" PRIu64 "\n", tried, files, lent_length, call, library, second);
    exit(1);
}

uint64_t agree_open(void)
{
    uint64_t library = windnadel_open(lent, lent_length);
    uint64_t second = second_open(lent, lent_length);
    opens++;
    if (library != second)
        differ("open", library, second);
    return library;
}

uint32_t agree_step(uint32_t state, uint32_t input)
{
    uint32_t library = windnadel_step(lent, lent_length, state, input);
    uint32_t second = second_step(lent, lent_length, state, input);
    steps++;
    if (library != second) {
        char call[64];
        snprintf(call, sizeof call, "step from state %" PRIu32 " with input %" PRIu32, state, input);
        differ(call, library, second);
    }
    return library;
}

uint32_t agree_outputs(uint32_t state)
{
    uint32_t library = windnadel_outputs(lent, lent_length, state);
    uint32_t second = second_outputs(lent, lent_length, state);
    outputs++;
    if (library != second) {
        char call[64];
        snprintf(call, sizeof call, "outputs of state %" PRIu32, state);
        differ(call, library, second);
    }
    return library;
}

void expect(uint64_t answer, uint64_t wanted)
{
    if (answer != wanted)
        differ("against the known answer", answer, wanted);
}

void unchanged(const uint8_t *bytes)
{
    if (lent_length > 0 && memcmp(lent, bytes, lent_length) != 0)
        differ("its bytes changed", 1, 0);
}

/* The count of states and of input numbers that the file's own bytes name, sound or not. */
static uint32_t named_states(void)
{
    return lent_length < 8 ? 2 : lent[6] + 256u * lent[7];
}

static uint32_t named_inputs(void)
{
    return lent_length < 8 ? 2 : (uint32_t)1 << (lent[4] & 31);
}

/* Numbers around a count, and around every width that a number could be cut to. */
static size_t edges(uint32_t count, uint32_t *list)
{
    static const uint32_t fixed[] = {
        0, 1, 2, 127, 128, 255, 256, 257, 32767, 32768, 65535, 65536, 65537,
        0x01000000, 0x7FFFFFFF, 0x80000000, 0x80000001, 0xFFFFFFFE, 0xFFFFFFFF,
    };
    size_t size = sizeof fixed / sizeof *fixed;
    memcpy(list, fixed, sizeof fixed);
    list[size++] = count - 1u;
    list[size++] = count;
    list[size++] = count + 1u;
    list[size++] = count + 0xFFFFu;
    list[size++] = 0x80000000u + count - 1u;
    list[size++] = random_word();
    return size;
}

void agree_edges(void)
{
    uint32_t states[32], inputs[32];
    size_t state_count = edges(named_states(), states);
    size_t input_count = edges(named_inputs(), inputs);
    for (size_t s = 0; s < state_count; s++) {
        agree_outputs(states[s]);
        for (size_t i = 0; i < input_count; i++)
            agree_step(states[s], inputs[i]);
    }
}

void agree_all(void)
{
    uint32_t states = named_states() < 300 ? named_states() : 300;
    uint32_t inputs = named_inputs() < 70 ? named_inputs() : 70;
    for (uint32_t state = 0; state < states + 2; state++) {
        agree_outputs(state);
        for (uint32_t input = 0; input < inputs + 2; input++)
            agree_step(state, input);
    }
}

void agree_file(const uint8_t *bytes, size_t len)
{
    lend(bytes, len, 0);
    agree_open();
    agree_edges();
    unchanged(bytes);
}

void print_counts(void)
{
    printf("stepper: %lu files, %lu opens, %lu steps, %lu outputs compared: ok\n",
           files, opens, steps, outputs);
}
