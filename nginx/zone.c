#define _GNU_SOURCE
#include "zone.h"

#include <search.h>
#include <stdlib.h>
#include <string.h>

#include "clock.h"

#define NO_TOKEN UINT32_MAX

/* The most grants of requests that have left in one go, so that other events of the thread have their turn. */
#define MOST_PASSED 1000

/* How many requests are walked over in one go, to cancel some of them: for a millisecond or two. Until the next go it is about as long
   again, in nanoseconds for each request that was walked over. */
#define MOST_WALKED 8192
#define PAUSE 500

/* How many more requests that are given up a client has than others, before they are cancelled whether or not one is due. */
#define MOST_GIVEN_UP 64

/* ---- tokens: the token of a request is its place in the list */

struct place {
  struct client *client;
  struct request *request; /* NULL, if it has left or has expired */
  enum dmc_counting counting;
  uint32_t cost;
  uint32_t earlier, later; /* the requests of its client before it and behind it; `later` of a free place is the next free one */
};

static void free_token(struct zone *zone, uint32_t token)
{
  zone->places[token] = (struct place){.later = zone->free_token};
  zone->free_token = token;
}

/* Makes room for twice as many. */
static bool add_tokens(struct zone *zone)
{
  uint32_t room = zone->tokens ? 2 * zone->tokens : 64;
  struct place *places = realloc(zone->places, room * sizeof *places);
  if (!places)
    return false;
  zone->places = places;
  for (uint32_t token = room; token-- > zone->tokens;)
    free_token(zone, token);
  zone->tokens = room;
  return true;
}

static bool take_token(struct zone *zone, struct request *request, struct client *client, uint32_t cost)
{
  if (zone->free_token == NO_TOKEN && !add_tokens(zone))
    return false;
  request->token = zone->free_token;
  struct place *place = &zone->places[request->token];
  zone->free_token = place->later;
  *place = (struct place){client, request, request->counting, cost, NO_TOKEN, NO_TOKEN};
  return true;
}

/* ---- requests in the queue */

/* A request of a client waits no more: the first one that still waits is another one, if it was this one. */
static void pass_waiting(const struct zone *zone, struct client *client, uint32_t token)
{
  if (client->first_waiting != token)
    return;
  do
    token = zone->places[token].later;
  while (token != NO_TOKEN && !zone->places[token].request);
  client->first_waiting = token;
}

/* Says that what is given up is to be cancelled at once, if a request of the client that waits may be due before its earliest one, which
   is given up, would be: it costs less. */
static void see_costs(struct zone *zone, const struct client *client)
{
  if (client->first_waiting != NO_TOKEN && zone->places[client->first_waiting].cost < zone->places[client->earliest].cost)
    zone->is_pressing = true;
}

/* A request is in the queue, as the latest one of its client. */
static void join_queue(struct zone *zone, const struct request *request)
{
  struct client *client = request->client;
  zone->places[request->token].earlier = client->latest;
  *(client->latest != NO_TOKEN ? &zone->places[client->latest].later : &client->earliest) = request->token;
  client->latest = request->token;
  if (client->first_waiting == NO_TOKEN)
    client->first_waiting = request->token;
  zone->queued++;
  client->queued++;
  see_costs(zone, client);
}

/* A request is no longer in the queue. */
static void leave_queue(struct zone *zone, uint32_t token)
{
  struct place left = zone->places[token];
  pass_waiting(zone, left.client, token);
  free_token(zone, token);
  *(left.later != NO_TOKEN ? &zone->places[left.later].earlier : &left.client->latest) = left.earlier;
  *(left.earlier != NO_TOKEN ? &zone->places[left.earlier].later : &left.client->earliest) = left.later;
  zone->queued--;
  left.client->queued--;
  left.client->given_up -= !left.request;
}

/* ---- those that wait */

static void append_wait(struct zone *zone, struct request *request)
{
  request->next = NULL;
  request->link = zone->last_wait;
  *zone->last_wait = request;
  zone->last_wait = &request->next;
  zone->waiting++;
}

/* A request waits no more: it is granted, has left or has expired. */
static void end_wait(struct zone *zone, struct request *request)
{
  *request->link = request->next;
  if (request->next)
    request->next->link = request->link;
  else
    zone->last_wait = request->link;
  zone->waiting--;
}

/* ---- the queue */

/* The queue's moment of a time. A request is added and another one granted at one time, and a moment is a division of 128 bits. */
static uint64_t moment_of(struct zone *zone, uint64_t now)
{
  if (zone->now != now) {
    zone->now = now;
    zone->moment = clock_moment(now);
  }
  return zone->moment;
}

static bool open_queue(struct zone *zone)
{
  struct dmc_config config = DMC_CONFIG(DMC_FINE_HZ);
  config.idle_age = clock_age(zone->config.idle);
  config.erase_age = clock_age(zone->config.erase);
  config.at_limit = zone->config.at_limit;
  config.threshold = clock_age(zone->config.threshold);
  config.shares = zone->config.shares;
  return dmc_queue_new(&zone->queue, &config) == DMC_OK;
}

static uint32_t register_client(struct zone *zone, const struct client *client, uint64_t now)
{
  const struct rates *rates = &client->rates;
  return dmc_queue_register(&zone->queue, client->id, rates->reservation, rates->weight, rates->limit, moment_of(zone, now));
}

/* Gives the queue a request. A client that it does not know, or has forgotten, is registered before. It begins at the present, whatever its
   stamp counts: what completed elsewhere before the queue was made, or while the client was away for so long, is no debt. */
static uint32_t give_request(struct zone *zone, const struct client *client, uint32_t token, struct dmc_stamp stamp, uint64_t now,
                             struct dmc_tags *tags)
{
  uint64_t moment = moment_of(zone, now);
  uint32_t code = dmc_queue_add(&zone->queue, client->id, token, stamp.delta, stamp.rho, stamp.cost, moment, tags);
  if (code != DMC_UNKNOWN)
    return code;
  code = register_client(zone, client, now);
  return code == DMC_OK ? dmc_queue_add(&zone->queue, client->id, token, 0, 0, stamp.cost, moment, tags) : code;
}

/* Adds a request, and keeps what its limit will be compared with for the next one. */
static uint32_t add_request(struct zone *zone, struct client *client, uint32_t token, struct dmc_stamp stamp, uint64_t now)
{
  struct dmc_tags tags;
  uint32_t code = give_request(zone, client, token, stamp, now, &tags);
  if (code == DMC_OK)
    client->limit_tag = tags.l.high == 0 ? tags.l.low : NEVER;
  return code;
}

static enum refusal refusal_of(uint32_t code)
{
  switch (code) {
    case DMC_OK: return REFUSED_NOT;
    case DMC_QUEUE_FULL: return REFUSED_FULL;
    case DMC_CLIENTS: return REFUSED_CLIENTS;
    case DMC_OVER_LIMIT: return REFUSED_LIMIT;
    case DMC_MEMORY: return REFUSED_MEMORY;
    default: return REFUSED_FAULT;
  }
}

/* ---- requests that are given up */

static uint64_t least(uint64_t a, uint64_t b)
{
  return a < b ? a : b;
}

/* Puts a client behind those that have given up requests. */
static void append_giving_up(struct zone *zone, struct client *client)
{
  client->is_giving_up = true;
  client->next_giving_up = NULL;
  *zone->last_giving_up = client;
  zone->last_giving_up = &client->next_giving_up;
}

/* Takes out the first one of them. */
static struct client *take_giving_up(struct zone *zone)
{
  struct client *client = zone->giving_up;
  zone->giving_up = client->next_giving_up;
  if (!zone->giving_up)
    zone->last_giving_up = &zone->giving_up;
  client->is_giving_up = false;
  return client;
}

/* The wait for a request ends without a grant, and it is to be cancelled: when one may be granted; or at once, if there are many or if
   they may keep another one from being due. */
static void give_up(struct zone *zone, struct request *request, enum request_state state, uint64_t now)
{
  struct client *client = request->client;
  end_wait(zone, request);
  request->state = state;
  zone->places[request->token].request = NULL;
  pass_waiting(zone, client, request->token);
  client->given_up++;
  see_costs(zone, client);
  if (client->queued + MOST_GIVEN_UP < 2 * client->given_up || zone->config.most_queued <= zone->queued - zone->waiting)
    zone->is_pressing = true;
  if (zone->is_pressing)
    zone->due = least(zone->due, now);
  if (!client->is_giving_up)
    append_giving_up(zone, client);
}

/* Takes a request out of the queue, which gives back what it was charged. */
static void cancel(struct zone *zone, uint32_t token)
{
  const struct place *place = &zone->places[token];
  uint32_t removed = 0;
  uint32_t code = dmc_queue_cancel(&zone->queue, place->client->id, token, place->counting, &removed);
  if (code == DMC_OK && removed == 1)
    leave_queue(zone, token);
  else
    zone->fault = "it does not have a request that is queued";
}

/* Cancels what a client has given up, from the latest to the earliest, so that each gives back all that it was charged: behind one that
   was cancelled, another gives back no more than that had left ("Slack" in docs/RULES.md). The queue walks over all requests of the
   client for each. */
static void cancel_latest(struct zone *zone, struct client *client, uint32_t *walked)
{
  uint32_t token = client->latest;
  while (client->given_up && *walked < MOST_WALKED && !zone->fault) {
    struct place place = zone->places[token];
    if (!place.request) {
      *walked += client->queued;
      cancel(zone, token);
    }
    token = place.earlier;
  }
}

/* Cancels what is given up, until the queue has walked over many. A client that still has some is then the last one. */
static void cancel_some(struct zone *zone, uint64_t now)
{
  uint32_t walked = 0;
  while (zone->giving_up && zone->next_cancel <= now && !zone->fault) {
    struct client *client = take_giving_up(zone);
    cancel_latest(zone, client, &walked);
    if (MOST_WALKED <= walked)
      zone->next_cancel = now + (uint64_t)walked * PAUSE;
    if (client->given_up)
      append_giving_up(zone, client);
  }
  zone->is_pressing = false;
}

/* ---- grants */

/* What the queue granted is no longer in it. Returns the request, or NULL if it has left or has expired. */
static struct request *grant(struct zone *zone, const struct dmc_pulled *pulled, uint64_t now)
{
  struct request *request = zone->places[pulled->token].request;
  struct client *client = zone->places[pulled->token].client;
  leave_queue(zone, pulled->token);
  if (!request)
    return NULL;
  end_wait(zone, request);
  client->grants[pulled->phase]++;
  client->costs[pulled->phase] += pulled->cost;
  client->beyond += pulled->beyond;
  buckets_count(&client->waited[pulled->phase], now - request->entered);
  client->under_way++;
  zone->under_way++;
  request->phase = pulled->phase;
  request->state = REQUEST_GRANTED;
  return request;
}

/* Asks the queue for the next request. False if it grants none now. */
static bool pull(struct zone *zone, struct dmc_pulled *pulled, uint64_t now)
{
  uint32_t code = dmc_queue_pull(&zone->queue, moment_of(zone, now), pulled);
  if (code != DMC_OK) {
    zone->fault = dmc_text(code);
    return false;
  }
  if (pulled->kind == DMC_FUTURE)
    zone->due = clock_due(pulled->due_low, pulled->due_high);
  return pulled->kind == DMC_GRANTED;
}

/* Grants what the queue grants now, while the device has room, and appends it to a list. It is called when either may have changed. What
   is given up is cancelled before, if one of it may be due, or if it presses: all that left since the last time together, and not each
   as it leaves, since then they give back more. A grant of what is not cancelled in time takes no room; after many such grants the next
   turn goes on. */
static void dispatch(struct zone *zone, uint64_t now, struct request **last)
{
  struct dmc_pulled pulled;
  uint32_t passed = 0;
  bool may_be_due = zone->due == NEVER && zone->under_way < zone->config.depth;
  if (zone->is_pressing || zone->due <= now || may_be_due)
    cancel_some(zone, now);
  zone->due = NEVER;
  while (!zone->fault && zone->queued && zone->under_way < zone->config.depth && passed < MOST_PASSED && pull(zone, &pulled, now)) {
    struct request *request = grant(zone, &pulled, now);
    passed += !request;
    if (request) {
      *last = request;
      last = &request->next;
      *last = NULL;
    }
  }
  if (passed == MOST_PASSED)
    zone->due = now;
  if (now < zone->next_cancel)
    zone->due = least(zone->due, zone->next_cancel);
}

/* ---- clients */

static int by_name(const void *a, const void *b)
{
  return strcmp(((const struct client *)a)->name, ((const struct client *)b)->name);
}

struct client *zone_find(const struct zone *zone, const char *name)
{
  struct client wanted; /* the tree reads the name alone */
  wanted.name = (char *)name;
  struct client **found = tfind(&wanted, &zone->names, by_name);
  return found ? *found : NULL;
}

/* A client that was forgotten, or a new one. Ids of clients that were forgotten are taken again, so that they never run out: the queue
   has forgotten them too. */
static struct client *take_client(struct zone *zone)
{
  struct client *client = zone->spare;
  if (client) {
    zone->spare = client->next;
    *client = (struct client){.id = client->id};
  } else {
    client = calloc(1, sizeof *client);
    if (client)
      client->id = zone->next_id++;
  }
  return client;
}

static void spare_client(struct zone *zone, struct client *client)
{
  free(client->name);
  client->name = NULL;
  client->next = zone->spare;
  zone->spare = client;
}

static struct client *new_client(struct zone *zone, const char *name, const struct rates *rates, bool is_kept)
{
  struct client *client = take_client(zone);
  if (!client)
    return NULL;
  client->name = strdup(name);
  client->rates = *rates;
  client->is_kept = is_kept;
  client->earliest = client->latest = client->first_waiting = NO_TOKEN;
  if (client->name && tsearch(client, &zone->names, by_name))
    return client;
  spare_client(zone, client);
  return NULL;
}

/* Whether there is no room for one more of this kind. The queue has room for all clients that the zone has. */
static bool is_crowded(const struct zone *zone, bool is_kept)
{
  return zone->kept + zone->others >= MOST_CLIENTS || (!is_kept && zone->others >= zone->config.most_others);
}

struct client *zone_client(struct zone *zone, const char *name, const struct rates *rates, bool is_kept, uint64_t now)
{
  struct client *client = is_crowded(zone, is_kept) ? NULL : new_client(zone, name, rates, is_kept);
  if (!client)
    return NULL;
  client->last_request = now;
  client->most_waiting = zone->config.most_of_client;
  client->link = zone->last_client;
  *zone->last_client = client;
  zone->last_client = &client->next;
  *(is_kept ? &zone->kept : &zone->others) += 1;
  return client;
}

static void forget(struct zone *zone, struct client *client)
{
  *client->link = client->next;
  if (client->next)
    client->next->link = client->link;
  else
    zone->last_client = client->link;
  tdelete(client, &zone->names, by_name);
  *(client->is_kept ? &zone->kept : &zone->others) -= 1;
  spare_client(zone, client);
}

/* Whether the zone may forget a client: the queue has forgotten it. */
static bool is_forgotten(const struct zone *zone, const struct client *client, uint64_t now)
{
  bool is_used = client->queued || client->under_way || client->is_giving_up;
  return !client->is_kept && !is_used && zone->config.erase < now - client->last_request;
}

static void forget_clients(struct zone *zone, uint64_t now)
{
  struct client *client = zone->first;
  while (client) {
    struct client *next = client->next;
    if (is_forgotten(zone, client, now))
      forget(zone, client);
    client = next;
  }
}

/* The queue marks clients idle and forgets old ones, and so does the zone. */
static void clean(struct zone *zone, uint64_t now)
{
  uint32_t idled, erased;
  dmc_queue_clean(&zone->queue, moment_of(zone, now), &idled, &erased);
  forget_clients(zone, now);
  zone->next_clean = now + zone->config.idle / 4 + 1;
}

/* ---- waits that end without a grant */

/* Whether the first one of those that wait has waited for too long. If nothing is granted any more, each has. */
static bool is_expired(const struct zone *zone, uint64_t now)
{
  return zone->waits && (zone->fault || zone->config.timeout <= now - zone->waits->entered);
}

/* Ends the waits that took too long, and makes a list of them. Returns its end. */
static struct request **expire(struct zone *zone, uint64_t now, struct request **last)
{
  while (is_expired(zone, now)) {
    struct request *request = zone->waits;
    give_up(zone, request, REQUEST_EXPIRED, now);
    request->client->expired++;
    *last = request;
    last = &request->next;
    *last = NULL;
  }
  return last;
}

/* ---- what callers use */

bool zone_open(struct zone *zone, const struct zone_config *config)
{
  zone->config = *config;
  zone->due = NEVER;
  zone->next_clean = config->idle / 4 + 1;
  zone->last_client = &zone->first;
  zone->last_wait = &zone->waits;
  zone->last_giving_up = &zone->giving_up;
  zone->free_token = NO_TOKEN;
  return open_queue(zone);
}

static void free_spare(struct zone *zone)
{
  while (zone->spare) {
    struct client *client = zone->spare;
    zone->spare = client->next;
    free(client);
  }
}

void zone_close(struct zone *zone)
{
  while (zone->first)
    forget(zone, zone->first);
  free_spare(zone);
  free(zone->places);
  dmc_queue_free(&zone->queue);
}

/* Whether no more requests may wait. As many again, and some, may be given up and not cancelled yet: who lets requests come and go faster
   than they are cancelled would else fill the queue, and the time of each cancel grows with the client's requests. */
static bool is_full(uint32_t waiting, uint32_t queued, uint32_t most)
{
  return most <= waiting || 2 * most + MOST_GIVEN_UP <= queued;
}

/* Why a request can't even be given to the queue. */
static enum refusal refusal_before(const struct zone *zone, const struct client *client)
{
  const struct zone_config *config = &zone->config;
  if (zone->fault)
    return REFUSED_FAULT;
  if (is_full(zone->waiting, zone->queued, config->most_queued))
    return REFUSED_FULL;
  uint32_t waiting = client->queued - client->given_up;
  return is_full(waiting, client->queued, client->most_waiting) ? REFUSED_CLIENT_FULL : REFUSED_NOT;
}

static enum refusal submit(struct zone *zone, struct request *request, struct client *client, struct dmc_stamp stamp, uint64_t now)
{
  enum refusal refusal = refusal_before(zone, client);
  if (refusal)
    return refusal;
  if (!take_token(zone, request, client, stamp.cost))
    return REFUSED_MEMORY;
  refusal = refusal_of(add_request(zone, client, request->token, stamp, now));
  if (refusal) {
    free_token(zone, request->token);
    return refusal;
  }
  request->client = client;
  request->state = REQUEST_WAITS;
  request->entered = now;
  append_wait(zone, request);
  join_queue(zone, request);
  client->requests++;
  client->last_request = now;
  return REFUSED_NOT;
}

enum refusal zone_enter(struct zone *zone, struct request *request, struct client *client, struct dmc_stamp stamp, uint64_t now,
                        struct request **woken)
{
  *woken = NULL;
  enum refusal refusal = submit(zone, request, client, stamp, now);
  if (refusal)
    client->refused++;
  else
    dispatch(zone, now, woken);
  return refusal;
}

struct request *zone_leave(struct zone *zone, struct request *request, uint64_t now)
{
  struct request *woken = NULL;
  if (request->state == REQUEST_WAITS) {
    give_up(zone, request, REQUEST_ENDED, now);
    request->client->left++;
  } else if (request->state == REQUEST_GRANTED) {
    request->state = REQUEST_ENDED;
    request->client->under_way--;
    zone->under_way--;
    dispatch(zone, now, &woken);
  }
  return woken;
}

struct request *zone_turn(struct zone *zone, uint64_t now)
{
  struct request *woken = NULL;
  if (zone->next_clean <= now)
    clean(zone, now);
  dispatch(zone, now, expire(zone, now, &woken));
  return woken;
}

uint64_t zone_next_turn(const struct zone *zone)
{
  uint64_t timeout = zone->config.timeout;
  uint64_t expires = zone->waits && timeout != NEVER ? zone->waits->entered + timeout : NEVER;
  return least(zone->fault && zone->waits ? 0 : expires, least(zone->due, zone->next_clean));
}

uint64_t zone_retry_after(const struct zone *zone, uint64_t now)
{
  return zone->due != NEVER && now < zone->due ? zone->due - now : 0;
}

uint64_t zone_limit_after(const struct zone *zone, const struct client *client, struct dmc_stamp stamp, uint64_t now)
{
  uint64_t spacing = client->rates.limit ? DMC_FINE_HZ / client->rates.limit : 0;
  uint64_t tag = 0, threshold = clock_age(zone->config.threshold);
  if (__builtin_add_overflow(client->limit_tag, stamp.delta * spacing, &tag) || tag < threshold)
    return 0;
  uint64_t due = clock_due(tag - threshold, 0);
  return due != NEVER && now < due ? due - now : 0;
}

const char *refusal_text(enum refusal refusal)
{
  static const char *const texts[] = {
    [REFUSED_NOT] = "queued",
    [REFUSED_FULL] = "the queue is full",
    [REFUSED_CLIENT_FULL] = "the client has its most requests in the queue",
    [REFUSED_CLIENTS] = "there are too many clients",
    [REFUSED_LIMIT] = "the client is over its limit",
    [REFUSED_MEMORY] = "memory is short",
    [REFUSED_FAULT] = "the queue refuses what it can't refuse",
  };
  return texts[refusal];
}
