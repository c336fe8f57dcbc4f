/*
 * The clock. Its ticks are the moments of the simulation. All motes share it,
 * and it never wraps.
 */
#ifndef CLOCK_H_
#define CLOCK_H_

#include <stdint.h>

typedef uint64_t clock_time_t;

clock_time_t clock_time(void);

#endif /* CLOCK_H_ */
