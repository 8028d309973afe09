/* 0 where the archive answers as it should. */
#ifndef TRIED_H
#define TRIED_H

int tried(void);

#endif
