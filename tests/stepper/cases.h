/* The cases, one concern to a file. */
#ifndef CASES_H
#define CASES_H

#include <stdint.h>

/* What is broken as open answers it, with its place, and as step and outputs do. */
#define BROKEN(number, place) (((uint64_t)(number) << 32) + (place))
#define REFUSED(number) (65536u + (uint32_t)(number))

void known_answers(void);
void sound_files(void);
void damaged_bytes(void);
void cut_and_lengthened(void);
void single_faults(void);
void bad_blocks(void);
void many_changes(void);

#endif
