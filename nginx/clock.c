#define _GNU_SOURCE
#include "clock.h"

#include <time.h>

#include "dmclock.h"

uint64_t clock_nanos(void)
{
  struct timespec time;
  clock_gettime(CLOCK_MONOTONIC, &time);
  return (uint64_t)time.tv_sec * SECOND + (uint64_t)time.tv_nsec;
}

uint64_t clock_moment(uint64_t nanos)
{
  uint64_t moment = 0;
  dmc_moment_from_nanos(DMC_FINE_HZ, nanos, &moment);
  return moment;
}

uint64_t clock_due(uint64_t due_low, uint64_t due_high)
{
  uint64_t nanos;
  return dmc_nanos_from_due(DMC_FINE_HZ, due_low, due_high, &nanos) == DMC_OK ? nanos : NEVER;
}

uint64_t clock_age(uint64_t nanos)
{
  uint64_t ticks;
  return dmc_moment_from_nanos(DMC_FINE_HZ, nanos, &ticks) == DMC_OK ? ticks : DMC_MAX_AGE;
}
