/* Records of the yardstick, each with its answer, and what follows for other rooms, work areas and buffers. */
#ifndef RECORDS_H
#define RECORDS_H

/* Tries every record of the one file against its line of the other; answers how many there were. */
unsigned long try_records(const char *records, const char *answers);

#endif
