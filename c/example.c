/* Two servers with a queue each, three clients with a tracker each, in both counting forms, requests that cost more than one, and what
   is refused. */
#include "dmclock.h"

#include <inttypes.h>
#include <stdio.h>
#include <stdlib.h>

enum { SERVERS = 2, CLIENTS = 3, ROUNDS = 4 };

static const char *phases[] = {"reservation", "priority"};

/* What a request of each client costs: that of client 2 is as much work as two of the others. */
static const uint32_t costs[CLIENTS] = {1, 1, 2};

/* Ends the program where a call that has to be accepted is not. */
static void must(uint32_t code) {
  if (code == DMC_OK) return;
  fprintf(stderr, "%s\n", dmc_text(code));
  exit(1);
}

/* A tag that is below 2^64. */
static void show_tag(struct dmc_tag tag) {
  if (tag.high != 0) printf(" far");
  else if (tag.denom == 1) printf(" %" PRIu64, tag.low);
  else printf(" %" PRIu64 "/%" PRIu64, tag.low, tag.denom);
}

static void show_tags(struct dmc_tags tags) {
  printf("tags");
  if (tags.reserved) show_tag(tags.r);
  else printf(" -");
  show_tag(tags.l);
  show_tag(tags.p);
  printf("\n");
}

/* A client's request reaches a server with the counts of its stamp and its cost. */
static void send(struct dmc_queue *queue, struct dmc_tracker *tracker, uint32_t server, uint32_t client, uint32_t token,
                 uint64_t at) {
  struct dmc_stamp stamp;
  struct dmc_tags tags;
  must(dmc_tracker_stamp(tracker, server, costs[client], &stamp));
  must(dmc_queue_add(queue, client, token, stamp.delta, stamp.rho, stamp.cost, at, &tags));
  printf("server %u client %u token %u delta %u rho %u cost %u: ", server, client, token, stamp.delta, stamp.rho, stamp.cost);
  show_tags(tags);
}

/* Serves what a server has to serve at a moment, and counts the responses at the clients' trackers. */
static void serve(struct dmc_queue *queue, struct dmc_tracker *trackers, uint32_t server, uint64_t at) {
  struct dmc_pulled pulled;
  for (;;) {
    must(dmc_queue_pull(queue, at, &pulled));
    if (pulled.kind != DMC_GRANTED) break;
    printf("server %u grants client %u token %u in phase %s\n", server, pulled.client, pulled.token, phases[pulled.phase]);
    must(dmc_tracker_respond(&trackers[pulled.client], server, pulled.phase, pulled.cost));
  }
  if (pulled.kind == DMC_FUTURE) printf("server %u: the next is due at %" PRIu64 "\n", server, pulled.due_low);
}

static void show_status(struct dmc_tracker *tracker, uint32_t client) {
  for (uint32_t server = 0; server < SERVERS; server++) {
    struct dmc_track track;
    must(dmc_tracker_status(tracker, server, &track));
    printf("client %u server %u: pending %" PRIu64 " %" PRIu64 " sent %" PRIu64 " %" PRIu64 " completions %" PRIu64 " %" PRIu64
           "\n", client, server, track.pending_delta, track.pending_rho, track.sent_delta, track.sent_rho, track.completions,
           track.reservation);
  }
}

/* A cluster of two servers: client 0 has a reservation, client 1 a limit, client 2 a third of a rate for its weight. */
static void run_cluster(uint32_t counting) {
  struct dmc_config config = DMC_CONFIG(1000);
  struct dmc_queue queues[SERVERS] = {DMC_QUEUE_NONE, DMC_QUEUE_NONE};
  struct dmc_tracker trackers[CLIENTS] = {DMC_TRACKER_NONE, DMC_TRACKER_NONE, DMC_TRACKER_NONE};
  printf("-- counting %s\n", counting == DMC_ALL ? "all" : "others");
  config.tag_kind = DMC_RATIO;
  for (uint32_t server = 0; server < SERVERS; server++) {
    must(dmc_queue_new(&queues[server], &config));
    must(dmc_queue_register(&queues[server], 0, 10, 1, 0, 0));
    must(dmc_queue_register(&queues[server], 1, 0, 2, 20, 0));
    must(dmc_queue_register(&queues[server], 2, 0, 3, 0, 0));
  }
  for (uint32_t client = 0; client < CLIENTS; client++) must(dmc_tracker_new(&trackers[client], SERVERS, 1000, counting));
  for (uint32_t round = 0; round < ROUNDS; round++) {
    uint64_t at = 25 * round;
    for (uint32_t client = 0; client < CLIENTS; client++)
      for (uint32_t server = 0; server < SERVERS; server++)
        send(&queues[server], &trackers[client], server, client, round, at);
    for (uint32_t server = 0; server < SERVERS; server++) serve(&queues[server], trackers, server, at);
  }
  for (uint32_t client = 0; client < CLIENTS; client++) show_status(&trackers[client], client);
  for (uint32_t server = 0; server < SERVERS; server++) {
    uint32_t clients, requests;
    must(dmc_queue_counts(&queues[server], &clients, &requests));
    printf("server %u has %u clients and %u requests\n", server, clients, requests);
    dmc_queue_free(&queues[server]);
  }
  for (uint32_t client = 0; client < CLIENTS; client++) dmc_tracker_free(&trackers[client]);
}

/* A call that is not accepted returns a code, and has changed nothing. */
static void run_refusals(void) {
  const struct dmc_config config = DMC_CONFIG(1000), no_ticks = DMC_CONFIG(0);
  struct dmc_queue queue = DMC_QUEUE_NONE;
  struct dmc_tracker tracker = DMC_TRACKER_NONE;
  struct dmc_tags tags;
  struct dmc_stamp stamp;
  printf("-- refusals\n");
  printf("an add to no queue: %s\n", dmc_text(dmc_queue_add(&queue, 1, 1, 0, 0, 1, 0, &tags)));
  printf("0 ticks a second: %s\n", dmc_text(dmc_queue_new(&queue, &no_ticks)));
  must(dmc_queue_new(&queue, &config));
  printf("a second queue in one struct: %s\n", dmc_text(dmc_queue_new(&queue, &config)));
  printf("a weight of 0: %s\n", dmc_text(dmc_queue_register(&queue, 1, 0, 0, 0, 0)));
  printf("a third of a tick: %s\n", dmc_text(dmc_queue_register(&queue, 1, 0, 3, 0, 0)));
  must(dmc_queue_register(&queue, 1, 0, 1, 0, 0));
  printf("a client twice: %s\n", dmc_text(dmc_queue_register(&queue, 1, 0, 1, 0, 0)));
  printf("a request of another: %s\n", dmc_text(dmc_queue_add(&queue, 2, 1, 0, 0, 1, 0, &tags)));
  printf("a rho past its delta: %s\n", dmc_text(dmc_queue_add(&queue, 1, 1, 0, 1, 1, 0, &tags)));
  printf("a cost of 0: %s\n", dmc_text(dmc_queue_add(&queue, 1, 1, 0, 0, 0, 0, &tags)));
  must(dmc_queue_add(&queue, 1, 1, 0, 0, 1, 0, &tags));
  printf("a reservation amid requests: %s\n", dmc_text(dmc_queue_update(&queue, 1, 10, 1, 0, 0)));
  must(dmc_tracker_new(&tracker, 1, 1, DMC_OTHERS));
  printf("a stamp to no server: %s\n", dmc_text(dmc_tracker_stamp(&tracker, 1, 1, &stamp)));
  must(dmc_tracker_stamp(&tracker, 0, 1, &stamp));
  printf("a stamp past `most`: %s\n", dmc_text(dmc_tracker_stamp(&tracker, 0, 1, &stamp)));
  printf("no phase: %s\n", dmc_text(dmc_tracker_respond(&tracker, 0, 2, 1)));
  dmc_tracker_free(&tracker);
  dmc_queue_free(&queue);
  printf("a response after the end: %s\n", dmc_text(dmc_tracker_respond(&tracker, 0, 0, 1)));
}

int main(void) {
  run_cluster(DMC_ALL);
  run_cluster(DMC_OTHERS);
  run_refusals();
  return 0;
}
