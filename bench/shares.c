/* What clients get by weight with shares by the clock and in virtual time, as a table. A device with four slots, each for a
   millisecond, is before the queue, so it serves 4,000 requests a second; or three servers have such a device of four slots for three
   milliseconds each, and each client has a tracker. Time is simulated, in ticks, and nothing is random. */
#include "dmclock.h"

#include <inttypes.h>
#include <stdio.h>
#include <stdlib.h>
#include <string.h>

enum { HZ = 12000000, SECONDS = 12, CLIENTS = 4, SERVERS = 3, SLOTS = 4, WINDOW = 32, TOKENS = CLIENTS * WINDOW };

static void must(uint32_t code) {
  if (code == DMC_OK) return;
  fprintf(stderr, "%s\n", dmc_text(code));
  exit(1);
}

/* ---- what is asked for */

/* Requests a second, and when the client asks for them, in seconds: from, until, and not from away until back. It has `window` of them
   under way, and sends `demand` a second, or the next one at each completion if that is 0. */
struct load { uint32_t reservation, weight, limit, window, demand, from, until, away, back; };

struct scene { uint32_t servers, clients; struct load loads[CLIENTS]; };

static bool is_asking(const struct load *load, uint64_t now) {
  uint64_t second = now / HZ;
  return load->from <= second && second < load->until && !(load->away <= second && second < load->back);
}

/* ---- a run */

struct slot { bool is_busy; uint64_t until; uint32_t client, phase; };

struct server { struct dmc_queue queue; struct slot slots[SLOTS]; uint64_t due; };

struct client { struct dmc_tracker tracker; uint32_t under_way, turn; uint64_t next; };

struct result { uint32_t granted[CLIENTS][SECONDS]; uint64_t longest[CLIENTS]; };

struct run {
  const struct scene *scene;
  struct server servers[SERVERS];
  struct client clients[CLIENTS];
  bool is_sent[TOKENS]; /* by token: whether a request waits, and since when */
  uint64_t since[TOKENS];
  struct result result;
};

static uint32_t free_token(const struct run *run) {
  uint32_t token = 0;
  while (run->is_sent[token]) token++;
  return token;
}

/* The device of a server is done with what it has had for long enough. */
static void complete(struct run *run, uint32_t server, uint64_t now) {
  for (uint32_t i = 0; i < SLOTS; i++) {
    struct slot *slot = &run->servers[server].slots[i];
    if (!slot->is_busy || now < slot->until) continue;
    slot->is_busy = false;
    run->clients[slot->client].under_way--;
    must(dmc_tracker_respond(&run->clients[slot->client].tracker, server, slot->phase, 1));
  }
}

static void count(struct run *run, const struct dmc_pulled *pulled, uint64_t now) {
  uint64_t waited = now - run->since[pulled->token];
  uint64_t *longest = &run->result.longest[pulled->client];
  run->is_sent[pulled->token] = false;
  run->result.granted[pulled->client][now / HZ]++;
  if (*longest < waited) *longest = waited;
}

/* Fills the free slots of a server's device. */
static void pull(struct run *run, uint32_t id, uint64_t now) {
  struct server *server = &run->servers[id];
  struct dmc_pulled pulled = {.kind = DMC_GRANTED};
  server->due = UINT64_MAX;
  for (uint32_t i = 0; i < SLOTS && pulled.kind == DMC_GRANTED; i++) {
    if (server->slots[i].is_busy) continue;
    must(dmc_queue_pull(&server->queue, now, &pulled));
    if (pulled.kind == DMC_FUTURE) server->due = pulled.due_low;
    if (pulled.kind != DMC_GRANTED) continue;
    server->slots[i] = (struct slot){true, now + HZ / 1000 * run->scene->servers, pulled.client, pulled.phase};
    count(run, &pulled, now);
  }
}

/* One more request of a client, to its next server. */
static void send(struct run *run, uint32_t id, uint64_t now) {
  struct client *client = &run->clients[id];
  uint32_t server = client->turn++ % run->scene->servers, token = free_token(run);
  struct dmc_stamp stamp;
  struct dmc_tags tags;
  must(dmc_tracker_stamp(&client->tracker, server, 1, &stamp));
  must(dmc_queue_add(&run->servers[server].queue, id, token, stamp.delta, stamp.rho, stamp.cost, now, &tags));
  run->is_sent[token] = true;
  run->since[token] = now;
  client->under_way++;
  pull(run, server, now);
}

/* What a client sends now. One that can't send what it demands, since its window is full, does so later. */
static void send_all(struct run *run, uint32_t id, uint64_t now) {
  const struct load *load = &run->scene->loads[id];
  struct client *client = &run->clients[id];
  while (is_asking(load, now) && client->under_way < load->window && client->next <= now) {
    if (load->demand) client->next = now + HZ / load->demand;
    send(run, id, now);
  }
}

static uint64_t least(uint64_t a, uint64_t b) { return a < b ? a : b; }

/* When something happens next: a request is done or due, a client sends one, or a second ends. */
static uint64_t next_moment(const struct run *run, uint64_t now) {
  uint64_t next = now - now % HZ + HZ;
  for (uint32_t i = 0; i < run->scene->servers; i++) {
    const struct server *server = &run->servers[i];
    next = least(next, server->due);
    for (uint32_t j = 0; j < SLOTS; j++)
      if (server->slots[j].is_busy) next = least(next, server->slots[j].until);
  }
  for (uint32_t i = 0; i < run->scene->clients; i++)
    if (now < run->clients[i].next) next = least(next, run->clients[i].next);
  return next;
}

static void open_run(struct run *run, const struct scene *scene, uint32_t shares) {
  struct dmc_config config = DMC_CONFIG(HZ);
  config.shares = shares;
  memset(run, 0, sizeof *run);
  run->scene = scene;
  for (uint32_t server = 0; server < scene->servers; server++) {
    must(dmc_queue_new(&run->servers[server].queue, &config));
    for (uint32_t id = 0; id < scene->clients; id++) {
      const struct load *load = &scene->loads[id];
      must(dmc_queue_register(&run->servers[server].queue, id, load->reservation, load->weight, load->limit, 0));
    }
  }
  for (uint32_t id = 0; id < scene->clients; id++)
    must(dmc_tracker_new(&run->clients[id].tracker, scene->servers, UINT64_C(1) << 62, DMC_OTHERS));
}

static void close_run(struct run *run) {
  for (uint32_t server = 0; server < run->scene->servers; server++) dmc_queue_free(&run->servers[server].queue);
  for (uint32_t id = 0; id < run->scene->clients; id++) dmc_tracker_free(&run->clients[id].tracker);
}

static struct result result_of(const struct scene *scene, uint32_t shares) {
  static struct run run;
  open_run(&run, scene, shares);
  for (uint64_t now = 0; now < (uint64_t)SECONDS * HZ; now = next_moment(&run, now)) {
    for (uint32_t server = 0; server < scene->servers; server++) complete(&run, server, now);
    for (uint32_t server = 0; server < scene->servers; server++) pull(&run, server, now);
    for (uint32_t id = 0; id < scene->clients; id++) send_all(&run, id, now);
  }
  close_run(&run);
  return run.result;
}

/* ---- the table */

typedef void put_result(const struct result *, uint32_t clients);

/* What the first client was granted in each second from the fourth on. */
static void put_seconds(const struct result *result, uint32_t clients) {
  (void)clients;
  for (uint32_t second = 4; second < 9; second++) printf("%s%" PRIu32, second == 4 ? "" : ", ", result->granted[0][second]);
}

/* What each client was granted in the last second. */
static void put_rates(const struct result *result, uint32_t clients) {
  for (uint32_t id = 0; id < clients; id++) printf("%s%" PRIu32, id == 0 ? "" : ", ", result->granted[id][SECONDS - 1]);
}

/* How long a request of each client waited at most, in milliseconds. */
static void put_longest(const struct result *result, uint32_t clients) {
  for (uint32_t id = 0; id < clients; id++) printf("%s%" PRIu64 " ms", id == 0 ? "" : ", ", (result->longest[id] + HZ / 2000) / (HZ / 1000));
}

static void put_row(const char *what, const struct scene *scene, put_result *put) {
  printf("| %s |", what);
  for (uint32_t shares = DMC_CLOCK; shares <= DMC_VIRTUAL; shares++) {
    struct result result = result_of(scene, shares);
    printf(" ");
    put(&result, scene->clients);
    printf(" |");
  }
  printf("\n");
}

/* A client that asks for as much as it can get, all the time. */
#define BUSY(the_weight) { .weight = (the_weight), .window = WINDOW, .until = SECONDS }

static void put_scenes(uint32_t servers) {
  const struct scene newcomer = {servers, 2, {{.weight = 1, .window = 4 * servers, .until = SECONDS}, {.weight = 1, .window = WINDOW, .from = 4, .until = SECONDS}}};
  const struct scene pause = {servers, 2, {BUSY(1), {.weight = 1, .window = WINDOW, .until = SECONDS, .away = 1, .back = 4}}};
  const struct scene rates = {servers, 3, {{.reservation = 1500, .weight = 1, .window = WINDOW, .until = SECONDS}, BUSY(10),
                                           {.weight = 10, .limit = 500, .window = WINDOW, .until = SECONDS}}};
  const struct scene weights = {servers, 3, {BUSY(1), BUSY(2), BUSY(4)}};
  const struct scene great = {servers, 3, {BUSY(1000), BUSY(2000), BUSY(4000)}};
  const struct scene small = {servers, 4, {BUSY(1), BUSY(1), {.weight = 1, .window = WINDOW, .demand = 100, .until = SECONDS},
                                           {.weight = 1, .window = WINDOW, .from = 4, .until = SECONDS}}};
  put_row("A alone for 4 s at the device's depth, then B: A gets, in seconds 4 to 8", &newcomer, put_seconds);
  put_row("the same: longest wait of A, of B", &newcomer, put_longest);
  put_row("A and B, B away from 1 to 4 s: A gets, in seconds 4 to 8", &pause, put_seconds);
  put_row("the same: longest wait of A, of B", &pause, put_longest);
  put_row("reservation 1,500; weight 10; weight 10 and limit 500", &rates, put_rates);
  put_row("weights 1, 2, 4", &weights, put_rates);
  put_row("weights 1,000, 2,000, 4,000", &great, put_rates);
  put_row("A and B ask for all, C for 100, D for all after 4 s: A gets, in seconds 4 to 8", &small, put_seconds);
  put_row("the same: each gets, in the last second", &small, put_rates);
  put_row("the same: longest wait of each", &small, put_longest);
}

int main(void) {
  for (uint32_t servers = 1; servers <= SERVERS; servers += 2) {
    printf("| %s | by the clock | in virtual time |\n|---|---|---|\n", servers == 1 ? "one server" : "three servers");
    put_scenes(servers);
  }
  return 0;
}
