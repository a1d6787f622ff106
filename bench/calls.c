/* The load `heap` of dmc_bench through the C interface: calls CLIENTS ROUNDS [LIMIT]. Its checksum and its lines are those
   of dmc_bench, and a line `memory` has the bytes that are allocated once each client has one request queued. */
#include "dmclock.h"

#include <inttypes.h>
#include <malloc.h>
#include <stdio.h>
#include <stdlib.h>
#include <time.h>

enum { HZ = 1000000 };

static uint64_t nanos(void) {
  struct timespec t;
  clock_gettime(CLOCK_MONOTONIC, &t);
  return (uint64_t)t.tv_sec * 1000000000u + (uint64_t)t.tv_nsec;
}

static uint64_t allocated(void) {
  const struct mallinfo2 info = mallinfo2();
  return info.uordblks + info.hblkhd;
}

static void tell(const char *part, uint32_t calls, uint64_t taken) {
  fprintf(stderr, "%s %" PRIu32 " %" PRIu64 "\n", part, calls, taken);
}

static void must(uint32_t code) {
  if (code == DMC_OK) return;
  fprintf(stderr, "%s\n", dmc_text(code));
  exit(1);
}

static void add(struct dmc_queue *queue, uint32_t client, uint64_t at) {
  struct dmc_tags tags;
  must(dmc_queue_add(queue, client, client, 1, 1, 1, at, &tags));
}

/* Batches of pulls and adds, one moment each, of about half of the clients. */
static uint64_t serve(struct dmc_queue *queue, uint32_t clients, uint32_t rounds, uint32_t limit) {
  uint32_t batch = clients / 2 + 1 < rounds ? clients / 2 + 1 : rounds, batches = rounds / batch, count;
  uint32_t *granted = malloc(batch * sizeof *granted);
  uint64_t step = limit == 0 ? 1 : HZ / limit / 2, pulling = 0, adding = 0, checksum = 0;
  if (granted == NULL) exit(1);
  for (uint32_t round = 0; round < batches; round++) {
    uint64_t at = step * round, begun = nanos();
    count = 0;
    for (uint32_t i = 0; i < batch; i++) {
      struct dmc_pulled pulled;
      if (dmc_queue_pull(queue, at, &pulled) == DMC_OK && pulled.kind == DMC_GRANTED) granted[count++] = pulled.client;
    }
    pulling += nanos() - begun;
    begun = nanos();
    for (uint32_t i = 0; i < count; i++) {
      add(queue, granted[i], at);
      checksum = checksum * 31 + granted[i];
    }
    adding += nanos() - begun;
  }
  free(granted);
  tell("pull", batches * batch, pulling);
  tell("add", batches * batch, adding);
  return checksum;
}

int main(int count, char **words) {
  if (count < 3) return 2;
  uint32_t clients = (uint32_t)atoi(words[1]), rounds = (uint32_t)atoi(words[2]);
  uint32_t limit = count > 3 ? (uint32_t)atoi(words[3]) : 0;
  const struct dmc_config config = DMC_CONFIG(HZ);
  struct dmc_queue queue = DMC_QUEUE_NONE;
  must(dmc_queue_new(&queue, &config));
  uint64_t begun = nanos();
  for (uint32_t id = 0; id < clients; id++) must(dmc_queue_register(&queue, id, 10, 1, limit, 0));
  tell("register", clients, nanos() - begun);
  begun = nanos();
  for (uint32_t id = 0; id < clients; id++) add(&queue, id, 0);
  tell("newcomer", clients, nanos() - begun);
  tell("memory", clients, allocated());
  printf("%" PRIu64 "\n", serve(&queue, clients, rounds, limit));
  dmc_queue_free(&queue);
  return 0;
}
