/* Turns of a cancel and an add in its place: cancels CLIENTS DEPTH PLACE FORM ROUNDS. Each client has DEPTH requests queued, and has
   its turn after the others. PLACE is which of its requests is cancelled, `first` or `last`, and FORM the form of counting, `all` or
   `others`. */
#include "dmclock.h"

#include <stdio.h>
#include <stdlib.h>
#include <string.h>

enum { HZ = 1000000 };

struct load {
  struct dmc_queue queue;
  uint32_t clients, depth, place;
  enum dmc_counting form;
  uint32_t *tokens; /* those of each client, in the order of its requests */
  uint32_t next;    /* the token of the next request */
};

static void must(uint32_t code) {
  if (code == DMC_OK) return;
  fprintf(stderr, "%s\n", dmc_text(code));
  exit(1);
}

static uint32_t add(struct load *load, uint32_t client, uint64_t at) {
  struct dmc_tags tags;
  must(dmc_queue_add(&load->queue, client, load->next, 1, 1, 1, at, &tags));
  return load->next++;
}

static void fill(struct load *load) {
  struct dmc_config config = DMC_CONFIG(HZ);
  must(dmc_queue_new(&load->queue, &config));
  for (uint32_t client = 0; client < load->clients; client++) {
    must(dmc_queue_register(&load->queue, client, 100, 1, 1000, 0));
    for (uint32_t i = 0; i < load->depth; i++) load->tokens[(size_t)client * load->depth + i] = add(load, client, 0);
  }
}

/* Cancels one request of the client, and adds another. */
static void turn(struct load *load, uint32_t client, uint64_t at) {
  uint32_t removed, *tokens = load->tokens + (size_t)client * load->depth;
  must(dmc_queue_cancel(&load->queue, client, tokens[load->place], load->form, &removed));
  if (removed != 1) exit(1);
  memmove(tokens + load->place, tokens + load->place + 1, (load->depth - load->place - 1) * sizeof *tokens);
  tokens[load->depth - 1] = add(load, client, at);
}

int main(int count, char **words) {
  if (count != 6) return 2;
  struct load load = {.clients = (uint32_t)strtoul(words[1], NULL, 10), .depth = (uint32_t)strtoul(words[2], NULL, 10)};
  uint32_t rounds = (uint32_t)strtoul(words[5], NULL, 10);
  load.place = strcmp(words[3], "first") ? load.depth - 1 : 0;
  load.form = strcmp(words[4], "all") ? DMC_OTHERS : DMC_ALL;
  load.tokens = malloc((size_t)load.clients * load.depth * sizeof *load.tokens);
  if (!load.tokens) return 1;
  fill(&load);
  for (uint32_t i = 0; i < rounds; i++) turn(&load, i % load.clients, i);
  dmc_queue_free(&load.queue);
  free(load.tokens);
  return 0;
}
