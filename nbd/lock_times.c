/* lock_times CLIENTS: how long the gate's lock is held for a request of one of these clients, while nobody else is in the gate. Writes the
   median at its entry and at its end, and the processor time of a whole request, in nanoseconds. It is linked with -Wl,--wrap for the
   calls that take the lock and give it back. */
#define _GNU_SOURCE
#include <stdio.h>
#include <stdlib.h>
#include <time.h>

#include "gate.h"

#define REQUESTS 400000

enum part { ENTRY, END, NONE };

/* What is measured now, by this thread, and for how many ticks of the processor it held the lock. */
static enum part part = NONE;
static pthread_t measured;
static uint64_t since, held[NONE][REQUESTS];
static size_t count[NONE];

int __real_pthread_mutex_lock(pthread_mutex_t *);
int __real_pthread_mutex_unlock(pthread_mutex_t *);

int __wrap_pthread_mutex_lock(pthread_mutex_t *lock)
{
  int result = __real_pthread_mutex_lock(lock);
  if (pthread_equal(pthread_self(), measured))
    since = __builtin_ia32_rdtsc();
  return result;
}

int __wrap_pthread_mutex_unlock(pthread_mutex_t *lock)
{
  if (part != NONE && pthread_equal(pthread_self(), measured))
    held[part][count[part]++] = __builtin_ia32_rdtsc() - since;
  return __real_pthread_mutex_unlock(lock);
}

static double nanos_of(clockid_t clock)
{
  struct timespec time;
  clock_gettime(clock, &time);
  return 1e9 * (double)time.tv_sec + (double)time.tv_nsec;
}

static bool stays(struct waiter *waiter)
{
  (void)waiter;
  return true;
}

static void open_gate(struct gate *gate, struct client **clients, unsigned number)
{
  struct gate_config config = {.depth = 64, .at_limit = DMC_WAIT, .shares = DMC_VIRTUAL, .idle_seconds = 60, .erase_seconds = 60,
                               .slice = 100000000};
  struct rates one = {0, 1, 0};
  char name[16];
  if (gate_open(gate, &config) || gate_start(gate))
    exit(1);
  for (unsigned i = 0; i < number; i++) {
    snprintf(name, sizeof name, "%u", i);
    if (gate_client(gate, name, &one, true, &clients[i]))
      exit(1);
  }
}

static void pass(struct gate *gate, struct client *client)
{
  struct waiter waiter = {.is_wanted = stays};
  part = ENTRY;
  if (gate_enter(gate, client, 4096, &waiter))
    exit(1);
  part = END;
  gate_leave(gate);
  part = NONE;
}

static int by_number(const void *a, const void *b)
{
  const uint64_t *one = a, *other = b;
  return (*other < *one) - (*one < *other);
}

static double median(uint64_t *numbers, size_t size)
{
  qsort(numbers, size, sizeof *numbers, by_number);
  return (double)numbers[size / 2];
}

int main(int words, char **word)
{
  static struct gate gate;
  static struct client *clients[65536];
  unsigned number = words == 2 ? (unsigned)strtoul(word[1], NULL, 10) : 0;
  if (number < 1 || 65536 < number)
    return 2;
  measured = pthread_self();
  open_gate(&gate, clients, number);
  double start = nanos_of(CLOCK_MONOTONIC), used = nanos_of(CLOCK_THREAD_CPUTIME_ID);
  uint64_t ticks = __builtin_ia32_rdtsc();
  for (unsigned i = 0; i < REQUESTS; i++)
    pass(&gate, clients[i % number]);
  double tick = (nanos_of(CLOCK_MONOTONIC) - start) / (double)(__builtin_ia32_rdtsc() - ticks);
  used = (nanos_of(CLOCK_THREAD_CPUTIME_ID) - used) / REQUESTS;
  printf("%.0f %.0f %.0f\n", tick * median(held[ENTRY], count[ENTRY]), tick * median(held[END], count[END]), used);
  gate_close(&gate);
  return 0;
}
