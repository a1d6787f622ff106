/* The simulation of the page over libdmclock.a, by the rule of docs/PLANNER.md. It reads the settings as words, a line for the servers
 * and one for each client:
 *     capacity servers seconds wait|allow others|all depth idle virtual|clock
 *     reservation weight limit demand from until window cost
 * with 0 for no reservation and no limit. It writes what each client's rates became, each grant (tick, server, client, token, phase,
 * beyond, wait), and how many requests of each client were turned away. */
#include "dmclock.h"

#include <inttypes.h>
#include <stddef.h>
#include <stdio.h>
#include <stdlib.h>
#include <string.h>

#define HZ ((uint64_t)DMC_FINE_HZ)
#define NEVER UINT64_MAX

/* What library.js reads. */
_Static_assert(sizeof(struct dmc_queue) == 16 && sizeof(struct dmc_tracker) == 16, "HANDLE");
_Static_assert(sizeof(struct dmc_config) == 48 && offsetof(struct dmc_config, hz) == 0, "CONFIG");
_Static_assert(offsetof(struct dmc_config, idle_age) == 8 && offsetof(struct dmc_config, erase_age) == 16, "CONFIG");
_Static_assert(offsetof(struct dmc_config, threshold) == 24 && offsetof(struct dmc_config, tag_kind) == 32, "CONFIG");
_Static_assert(offsetof(struct dmc_config, at_limit) == 36 && offsetof(struct dmc_config, shares) == 40, "CONFIG");
_Static_assert(sizeof(struct dmc_stamp) == 12 && offsetof(struct dmc_stamp, rho) == 4, "STAMP");
_Static_assert(offsetof(struct dmc_stamp, cost) == 8, "STAMP");
_Static_assert(sizeof(struct dmc_tags) == 80, "TAGS");
_Static_assert(sizeof(struct dmc_pulled) == 40, "PULLED");
_Static_assert(offsetof(struct dmc_pulled, kind) == 0 && offsetof(struct dmc_pulled, client) == 4, "PULLED");
_Static_assert(offsetof(struct dmc_pulled, token) == 8 && offsetof(struct dmc_pulled, phase) == 12, "PULLED");
_Static_assert(offsetof(struct dmc_pulled, cost) == 16 && offsetof(struct dmc_pulled, beyond) == 20, "PULLED");
_Static_assert(offsetof(struct dmc_pulled, due_low) == 24 && offsetof(struct dmc_pulled, due_high) == 32, "PULLED");
_Static_assert(DMC_FINE_HZ == 735134400 && DMC_TICK == 0 && DMC_WAIT == 0 && DMC_ALLOW == 1, "numbers");
_Static_assert(DMC_CLOCK == 0 && DMC_VIRTUAL == 1, "numbers");
_Static_assert(DMC_ALL == 0 && DMC_OTHERS == 1 && DMC_RESERVATION == 0 && DMC_GRANTED == 0 && DMC_FUTURE == 1, "numbers");

struct client {
  struct dmc_tracker tracker;
  uint32_t reservation, weight, limit, cost;
  uint64_t spacing, next, until, window, under_way, turned_away;
  uint64_t *sent_at; /* by token */
  uint32_t sent, room;
};

#define MOST_DEPTH 1024

struct grant {
  uint64_t done;
  uint32_t client, phase, cost;
};

struct server {
  struct dmc_queue queue;
  uint64_t capacity, pulls;
  struct grant grants[MOST_DEPTH]; /* a ring, in the order in which they are done */
  uint32_t first, serves, depth;
};

static void must(uint32_t code)
{
  if (code != DMC_OK) {
    fprintf(stderr, "the library refuses a call: %s\n", dmc_text(code));
    exit(1);
  }
}

static void *grown(void *at, size_t count, size_t size)
{
  at = realloc(at, count * size);
  if (!at)
    abort();
  return at;
}

static uint64_t earlier(uint64_t one, uint64_t other) { return one < other ? one : other; }

/* Reads a client's line, and makes its rates exact. */
static bool read_client(struct client *it, uint64_t number, uint64_t seconds, uint32_t servers, uint32_t counting)
{
  uint64_t demand, from, until;
  if (scanf("%" SCNu32 "%" SCNu32 "%" SCNu32 "%" SCNu64 "%" SCNu64 "%" SCNu64 "%" SCNu64 "%" SCNu32, &it->reservation, &it->weight,
            &it->limit, &demand, &from, &until, &it->window, &it->cost) != 8)
    return false;
  if (it->reservation)
    must(dmc_rate_at_least(HZ, it->reservation, &it->reservation));
  must(dmc_rate_at_most(HZ, it->weight, &it->weight));
  if (it->limit)
    must(dmc_rate_at_most(HZ, it->limit, &it->limit));
  printf("rates %" PRIu32 " %" PRIu32 " %" PRIu32 "\n", it->reservation, it->weight, it->limit);
  must(dmc_tracker_new(&it->tracker, servers, UINT64_C(1) << 62, counting));
  it->spacing = it->cost * HZ / demand;
  it->until = earlier(until, seconds) * HZ;
  uint64_t first = from * HZ + it->spacing * ((number + 1) * 40503 % 65536) / 65536;
  it->next = first < it->until ? first : NEVER;
  return true;
}

/* A request of a client, or one that its window turns away. */
static void send(struct client *it, uint32_t id, struct server *servers, uint32_t count, uint64_t now)
{
  it->next = now + it->spacing < it->until ? now + it->spacing : NEVER;
  if (it->under_way == it->window) {
    it->turned_away++;
    return;
  }
  struct dmc_stamp stamp;
  struct dmc_tags tags;
  uint32_t token = it->sent++, to = token % count;
  if (token == it->room)
    it->sent_at = grown(it->sent_at, it->room = 2 * it->room + 1024, sizeof *it->sent_at);
  it->sent_at[token] = now;
  must(dmc_tracker_stamp(&it->tracker, to, it->cost, &stamp));
  must(dmc_queue_add(&servers[to].queue, id, token, stamp.delta, stamp.rho, stamp.cost, now, &tags));
  it->under_way++;
  if (servers[to].serves < servers[to].depth)
    servers[to].pulls = now;
}

static struct grant *grant_at(struct server *it, uint32_t place) { return &it->grants[(it->first + place) % MOST_DEPTH]; }

/* Serves a grant. Of those that are done at the same time the first one is done first. */
static void serve(struct server *it, struct grant grant)
{
  uint32_t place = it->serves++;
  for (; place > 0 && grant_at(it, place - 1)->done > grant.done; place--)
    *grant_at(it, place) = *grant_at(it, place - 1);
  *grant_at(it, place) = grant;
}

static void complete(struct server *it, uint32_t id, struct client *clients, uint64_t now)
{
  const struct grant *grant = grant_at(it, 0);
  struct client *whose = &clients[grant->client];
  must(dmc_tracker_respond(&whose->tracker, id, grant->phase, grant->cost));
  whose->under_way--;
  it->first = (it->first + 1) % MOST_DEPTH;
  it->serves--;
  it->pulls = now;
}

static void pull(struct server *it, uint32_t id, const struct client *clients, uint64_t now)
{
  struct dmc_pulled pulled;
  must(dmc_queue_pull(&it->queue, now, &pulled));
  if (pulled.kind == DMC_GRANTED) {
    serve(it, (struct grant){now + HZ * it->depth * pulled.cost / it->capacity, pulled.client, pulled.phase, pulled.cost});
    if (it->serves == it->depth)
      it->pulls = NEVER;
    printf("grant %" PRIu64 " %" PRIu32 " %" PRIu32 " %" PRIu32 " %" PRIu32 " %d %" PRIu64 "\n", now, id, pulled.client, pulled.token,
           pulled.phase, pulled.beyond, now - clients[pulled.client].sent_at[pulled.token]);
  } else {
    it->pulls = pulled.kind == DMC_FUTURE && !pulled.due_high ? pulled.due_low : NEVER;
  }
}

int main(void)
{
  uint64_t capacity, seconds, idle;
  uint32_t servers, depth, clients = 0;
  char at_limit[8], counting[8], shares[8];
  if (scanf("%" SCNu64 "%" SCNu32 "%" SCNu64 "%7s%7s%" SCNu32 "%" SCNu64 "%7s", &capacity, &servers, &seconds, at_limit, counting, &depth,
            &idle, shares) != 8 || servers > 16 || depth > MOST_DEPTH)
    return 2;
  static struct client all[64];
  while (clients < 64 && read_client(&all[clients], clients, seconds, servers, strcmp(counting, "all") ? DMC_OTHERS : DMC_ALL))
    clients++;
  static struct server list[16];
  struct dmc_config config = DMC_CONFIG(HZ);
  config.idle_age = idle * HZ;
  config.erase_age = 1000000 * HZ;
  config.at_limit = strcmp(at_limit, "allow") ? DMC_WAIT : DMC_ALLOW;
  config.shares = strcmp(shares, "clock") ? DMC_VIRTUAL : DMC_CLOCK;
  for (uint32_t s = 0; s < servers; s++) {
    list[s].pulls = NEVER;
    list[s].capacity = capacity;
    list[s].depth = depth;
    must(dmc_queue_new(&list[s].queue, &config));
    for (uint32_t i = 0; i < clients; i++)
      must(dmc_queue_register(&list[s].queue, i, all[i].reservation, all[i].weight, all[i].limit, 0));
  }
  for (uint64_t second = 1;;) {
    uint64_t now = second * HZ;
    for (uint32_t i = 0; i < clients; i++)
      now = earlier(now, all[i].next);
    for (uint32_t s = 0; s < servers; s++)
      now = earlier(now, earlier(list[s].pulls, list[s].serves ? grant_at(&list[s], 0)->done : NEVER));
    if (now >= seconds * HZ)
      break;
    for (uint32_t s = 0; s < servers; s++)
      while (list[s].serves && grant_at(&list[s], 0)->done == now)
        complete(&list[s], s, all, now);
    if (now == second * HZ) {
      uint32_t idled, erased;
      for (uint32_t s = 0; s < servers; s++)
        must(dmc_queue_clean(&list[s].queue, now, &idled, &erased));
      second++;
    }
    for (uint32_t i = 0; i < clients; i++)
      if (all[i].next == now)
        send(&all[i], i, list, servers, now);
    for (uint32_t s = 0; s < servers; s++)
      while (list[s].serves < list[s].depth && list[s].pulls == now)
        pull(&list[s], s, all, now);
  }
  for (uint32_t i = 0; i < clients; i++)
    printf("turned away %" PRIu64 "\n", all[i].turned_away);
  return 0;
}
