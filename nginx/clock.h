/* The clock of a queue: nanoseconds, and the moments of a queue of DMC_FINE_HZ. */
#ifndef DMCLOCK_CLOCK_H
#define DMCLOCK_CLOCK_H

#include <stdint.h>

#define MILLISECOND 1000000u
#define SECOND 1000000000u

/* After all times of a clock. */
#define NEVER UINT64_MAX

/* Nanoseconds of CLOCK_MONOTONIC. */
uint64_t clock_nanos(void);

/* The queue's moment of a time in nanoseconds. A clock of nanoseconds lasts 198 years to the last moment. */
uint64_t clock_moment(uint64_t nanos);

/* The time of a moment that a pull gave as the next one that is due; NEVER if no clock has it. */
uint64_t clock_due(uint64_t due_low, uint64_t due_high);

/* An age in the queue's ticks; the greatest one if it is more. */
uint64_t clock_age(uint64_t nanos);

#endif
