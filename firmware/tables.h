/* The table files that this firmware carries, as they would lie in flash; made from examples/NAME.csml. */
#ifndef TABLES_H
#define TABLES_H

#include <stdint.h>

/* GO switches LAMP on and off. */
extern const uint8_t blink_file[512];

/* The mast: inputs FROST, WATER, FIRE, METER, SENT; outputs KEY, LOST, TAKE-METER. */
extern const uint8_t mast_file[15360];

#endif
