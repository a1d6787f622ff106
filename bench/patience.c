/* What a client gets of its limit of 300 requests a second if it asks for more and gives each request up after a second: patience
   ASKED, as a row for each way to give up. `left` leaves the request in the queue; `all` and `others` cancel it, in these forms of
   counting. Each column is a second, and counts the requests that were granted while the client still waited for them. */
#include "dmclock.h"

#include <inttypes.h>
#include <stdbool.h>
#include <stdio.h>
#include <stdlib.h>

enum { HZ = 3000000, STEP = HZ / 1000, PATIENCE = HZ, SECONDS = 10, LIMIT = 300 };
enum way { LEFT, CANCEL_ALL, CANCEL_OTHERS };

struct load {
  struct dmc_queue queue;
  uint32_t asked;    /* requests a second */
  uint32_t arrived;  /* how many came */
  uint32_t given_up; /* those before this one are no longer waited for */
  bool *granted;
};

static void must(uint32_t code) {
  if (code == DMC_OK) return;
  fprintf(stderr, "%s\n", dmc_text(code));
  exit(1);
}

/* The moment at which a request comes. */
static uint64_t moment_of(const struct load *load, uint32_t token) { return (uint64_t)token * HZ / load->asked; }

static void arrive(struct load *load, uint64_t now) {
  struct dmc_tags tags;
  for (; moment_of(load, load->arrived) <= now; load->arrived++)
    must(dmc_queue_add(&load->queue, 1, load->arrived, 1, 1, 1, now, &tags));
}

static void give_up(struct load *load, uint64_t now, enum way way) {
  for (; load->given_up < load->arrived && moment_of(load, load->given_up) + PATIENCE <= now; load->given_up++) {
    uint32_t removed;
    if (way == LEFT || load->granted[load->given_up]) continue;
    must(dmc_queue_cancel(&load->queue, 1, load->given_up, way == CANCEL_ALL ? DMC_ALL : DMC_OTHERS, &removed));
  }
}

/* Grants what is due, and returns how many of the requests were still waited for. */
static uint32_t serve(struct load *load, uint64_t now) {
  struct dmc_pulled pulled;
  uint32_t served = 0;
  for (;;) {
    must(dmc_queue_pull(&load->queue, now, &pulled));
    if (pulled.kind != DMC_GRANTED) return served;
    load->granted[pulled.token] = true;
    served += pulled.token >= load->given_up;
  }
}

static void row(uint32_t asked, enum way way) {
  static const char *const names[] = {"left", "all", "others"};
  struct dmc_config config = DMC_CONFIG(HZ);
  struct load load = {DMC_QUEUE_NONE, asked, 0, 0, calloc((size_t)asked * (SECONDS + 1), sizeof(bool))};
  if (!load.granted) exit(1);
  must(dmc_queue_new(&load.queue, &config));
  must(dmc_queue_register(&load.queue, 1, 0, 1, LIMIT, 0));
  printf("| %" PRIu32 " | %s |", asked, names[way]);
  for (uint32_t second = 0; second < SECONDS; second++) {
    uint32_t served = 0;
    for (uint64_t now = (uint64_t)second * HZ; now < (second + 1) * (uint64_t)HZ; now += STEP) {
      arrive(&load, now);
      give_up(&load, now, way);
      served += serve(&load, now);
    }
    printf(" %" PRIu32 " |", served);
  }
  puts("");
  dmc_queue_free(&load.queue);
  free(load.granted);
}

int main(int count, char **words) {
  if (count != 2) return 2;
  uint32_t asked = (uint32_t)strtoul(words[1], NULL, 10);
  for (enum way way = LEFT; way <= CANCEL_OTHERS; way++) row(asked, way);
  return 0;
}
