/* What clients of a server with four shards get if nine of ten of their requests go to shard 0 and the others to the rest in turn: one
   with a limit of 500 requests a second, and one with a reservation of 1,000. A third one, of the weight of the first and a hundred times
   that of the second, has requests queued at each shard all the time. Each shard serves 2,000 requests a second. Each row is a way to set the rates, and has the least and
   the most that the two got in one of the seconds 2 to 10. Time is simulated. */
#include "dmclock.h"

#include <inttypes.h>
#include <stdbool.h>
#include <stdio.h>
#include <stdlib.h>

enum { HZ = 3000000, SHARDS = 4, STEP = HZ / 2000, SECONDS = 10, DEPTH = 8 };
enum way { TRACKED, FULL, DIVIDED };
enum { LIMITED, RESERVED, OTHER, CLIENTS };

/* The requests a second that come of each client; of the last one as many as are granted. */
static const uint32_t asked[CLIENTS] = {1500, 1200, 0};

struct server {
  enum way way;
  struct dmc_queue queues[SHARDS];
  struct dmc_shards trackers[OTHER]; /* of the two clients */
  uint32_t came[OTHER];
};

static void must(uint32_t code) {
  if (code == DMC_OK) return;
  fprintf(stderr, "%s\n", dmc_text(code));
  exit(1);
}

static void add(struct server *server, uint32_t shard, uint32_t client, struct dmc_stamp stamp, uint64_t now) {
  struct dmc_tags tags;
  must(dmc_queue_add(&server->queues[shard], client, 0, stamp.delta, stamp.rho, stamp.cost, now, &tags));
}

static void open_server(struct server *server) {
  struct dmc_config config = DMC_CONFIG(HZ);
  uint32_t parts = server->way == DIVIDED ? SHARDS : 1;
  config.shares = DMC_VIRTUAL;
  for (uint32_t shard = 0; shard < SHARDS; shard++) {
    struct dmc_queue *queue = &server->queues[shard];
    must(dmc_queue_new(queue, &config));
    must(dmc_queue_register(queue, LIMITED, 0, 100, 500 / parts, 0));
    must(dmc_queue_register(queue, RESERVED, 1000 / parts, 1, 0, 0));
    must(dmc_queue_register(queue, OTHER, 0, 100, 0, 0));
    for (uint32_t request = 0; request < DEPTH; request++) add(server, shard, OTHER, (struct dmc_stamp){1, 1, 1}, 0);
  }
  for (uint32_t client = 0; client < OTHER; client++) must(dmc_shards_new(&server->trackers[client], SHARDS, UINT64_C(1) << 62));
}

/* The shard of a client's request. */
static uint32_t shard_of(uint32_t request) { return request % 10 ? 0 : 1 + request / 10 % (SHARDS - 1); }

/* A request comes to the server. Its stamp counts the request alone, since the client uses no other server. */
static void arrive(struct server *server, uint32_t client, uint64_t now) {
  struct dmc_stamp stamp = {1, 1, 1};
  uint32_t shard = shard_of(server->came[client]++);
  if (server->way == TRACKED) must(dmc_shards_arrive(&server->trackers[client], shard, &stamp));
  add(server, shard, client, stamp, now);
}

/* Each shard serves a request. */
static void serve(struct server *server, uint64_t now, uint32_t granted[CLIENTS]) {
  for (uint32_t shard = 0; shard < SHARDS; shard++) {
    struct dmc_pulled pulled;
    must(dmc_queue_pull(&server->queues[shard], now, &pulled));
    if (pulled.kind != DMC_GRANTED) continue;
    granted[pulled.client]++;
    if (pulled.client == OTHER) add(server, shard, OTHER, (struct dmc_stamp){1, 1, 1}, now);
  }
}

static void run_second(struct server *server, uint64_t start, uint32_t granted[CLIENTS]) {
  for (uint64_t now = start; now < start + HZ; now += STEP) {
    for (uint32_t client = 0; client < OTHER; client++)
      while ((uint64_t)server->came[client] * HZ / asked[client] <= now) arrive(server, client, now);
    serve(server, now, granted);
  }
}

static void close_server(struct server *server) {
  for (uint32_t shard = 0; shard < SHARDS; shard++) dmc_queue_free(&server->queues[shard]);
  for (uint32_t client = 0; client < OTHER; client++) dmc_shards_free(&server->trackers[client]);
}

static void row(enum way way, const char *name) {
  struct server server = {.way = way};
  uint32_t least[OTHER] = {UINT32_MAX, UINT32_MAX}, most[OTHER] = {0};
  open_server(&server);
  for (uint64_t second = 0; second < SECONDS; second++) {
    uint32_t granted[CLIENTS] = {0};
    run_second(&server, second * HZ, granted);
    for (uint32_t client = 0; second && client < OTHER; client++) {
      if (granted[client] < least[client]) least[client] = granted[client];
      if (granted[client] > most[client]) most[client] = granted[client];
    }
  }
  close_server(&server);
  printf("| %s |", name);
  for (uint32_t client = 0; client < OTHER; client++) printf(" %" PRIu32 " to %" PRIu32 " |", least[client], most[client]);
  puts("");
}

int main(void) {
  row(TRACKED, "the rates at each shard, stamps of a shard tracker");
  row(FULL, "the rates at each shard, no stamps");
  row(DIVIDED, "a quarter of the rates at each shard, no stamps");
  return 0;
}
