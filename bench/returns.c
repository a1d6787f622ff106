/* What an add of a client costs that comes back idle, while all others have a request queued: returns CLIENTS, as two rows of a
   table, by the clock and in virtual time. */
#include "dmclock.h"

#include <inttypes.h>
#include <stdio.h>
#include <stdlib.h>
#include <time.h>

enum { HZ = 1000000, RETURNS = 200, IDLE_AGE = 1000 };

static uint64_t nanos(void) {
  struct timespec t;
  clock_gettime(CLOCK_MONOTONIC, &t);
  return (uint64_t)t.tv_sec * 1000000000u + (uint64_t)t.tv_nsec;
}

static void must(uint32_t code) {
  if (code == DMC_OK) return;
  fprintf(stderr, "%s\n", dmc_text(code));
  exit(1);
}

/* A queue with these clients, each with a request but the first ones, which are idle. */
static struct dmc_queue filled(uint32_t clients, uint32_t shares) {
  struct dmc_config config = DMC_CONFIG(HZ);
  struct dmc_queue queue = DMC_QUEUE_NONE;
  struct dmc_tags tags;
  uint32_t idled, erased;
  config.idle_age = IDLE_AGE;
  config.shares = shares;
  must(dmc_queue_new(&queue, &config));
  for (uint32_t client = 0; client < clients; client++) {
    must(dmc_queue_register(&queue, client, 0, 1, 0, 0));
    must(dmc_queue_add(&queue, client, client, 0, 0, 1, 0, &tags));
  }
  for (uint32_t client = 0; client < RETURNS; client++) {
    struct dmc_pulled pulled;
    must(dmc_queue_pull(&queue, 0, &pulled));
  }
  must(dmc_queue_clean(&queue, IDLE_AGE, &idled, &erased));
  return queue;
}

/* The nanoseconds of an add of an idle client, each at a moment of its own. */
static uint64_t taken(uint32_t clients, uint32_t shares) {
  struct dmc_queue queue = filled(clients, shares);
  struct dmc_tags tags;
  uint64_t begun = nanos();
  for (uint32_t client = 0; client < RETURNS; client++)
    must(dmc_queue_add(&queue, client, client, 1, 1, 1, IDLE_AGE + 1 + client, &tags));
  uint64_t ended = nanos();
  dmc_queue_free(&queue);
  return (ended - begun) / RETURNS;
}

int main(int count, char **words) {
  if (count != 2) return 2;
  uint32_t clients = (uint32_t)strtoul(words[1], NULL, 10);
  printf("| %" PRIu32 " | %" PRIu64 " | %" PRIu64 " |\n", clients, taken(clients, DMC_CLOCK), taken(clients, DMC_VIRTUAL));
  return 0;
}
