#define _GNU_SOURCE
#include "gate.h"

#include <errno.h>
#include <search.h>
#include <semaphore.h>
#include <stdio.h>
#include <stdlib.h>
#include <string.h>
#include <time.h>

#define NEVER UINT64_MAX
#define NO_TOKEN UINT32_MAX
#define SECOND 1000000000u

/* How many requests of a client are walked over, to cancel some of them, while the lock is held once: for about a millisecond. */
#define MOST_WALKED 4096

/* A request that waits for its grant, in the memory of the thread that waits. That is woken once when the wait has ended, or the request
   is no longer held, and once for each time that it is to ask. */
struct slot {
  sem_t wakes;
  struct client *client;
  struct waiter *waiter;
  uint32_t bytes;
  uint32_t token;
  bool must_ask;           /* its thread is to ask whether it is wanted */
  uint64_t entered;
  int fault;               /* an errno, if the wait ended without a grant */
  struct slot *next;       /* of those whose waits end at once, or that are held */
  struct slot *next_asked; /* of those that are to ask at once */
};

/* ---- the clock */

static uint64_t clock_nanos(void)
{
  struct timespec time;
  clock_gettime(CLOCK_MONOTONIC, &time);
  return (uint64_t)time.tv_sec * SECOND + (uint64_t)time.tv_nsec;
}

uint64_t gate_now(const struct gate *gate)
{
  return clock_nanos() - gate->start;
}

/* The queue's moment of a time of the gate's clock. A clock of nanoseconds lasts 198 years to the last moment. */
static uint64_t moment_of(uint64_t nanos)
{
  uint64_t moment = 0;
  dmc_moment_from_nanos(DMC_FINE_HZ, nanos, &moment);
  return moment;
}

/* ---- the queue's codes */

static int errno_of(uint32_t code)
{
  switch (code) {
    case DMC_OK: return 0;
    case DMC_MEMORY:
    case DMC_OVER_LIMIT:
    case DMC_QUEUE_FULL: return ENOMEM;
    case DMC_CLIENTS: return EBUSY;
    default: return EIO;
  }
}

/* ---- tokens: the token of a request is its place in the list */

struct place {
  struct client *client;   /* NULL, if the place is free */
  struct slot *slot;       /* NULL, if nobody waits for the request any more */
  uint32_t earlier, later; /* the requests of its client before it and behind it; `later` of a free place is the next free one */
};

static void free_token(struct gate *gate, uint32_t token)
{
  gate->places[token] = (struct place){.later = gate->free_token};
  gate->free_token = token;
}

/* Makes room for twice as many slots. */
static int add_tokens(struct gate *gate)
{
  uint32_t room = gate->tokens ? 2 * gate->tokens : 64;
  struct place *places = realloc(gate->places, room * sizeof *places);
  if (!places)
    return ENOMEM;
  gate->places = places;
  for (uint32_t token = room; token-- > gate->tokens;)
    free_token(gate, token);
  gate->tokens = room;
  return 0;
}

static int take_token(struct gate *gate, struct slot *slot)
{
  int fault = gate->free_token == NO_TOKEN ? add_tokens(gate) : 0;
  if (fault)
    return fault;
  slot->token = gate->free_token;
  gate->free_token = gate->places[slot->token].later;
  gate->places[slot->token] = (struct place){slot->client, slot, NO_TOKEN, NO_TOKEN};
  return 0;
}

/* ---- grants */

/* Wakes the threads of slots whose waits have ended, but one's own. A slot is gone once its thread is woken. Returns whether the own one is
   among them. */
static bool wake(struct slot *ended, const struct slot *own)
{
  bool has_own = false;
  while (ended) {
    struct slot *slot = ended;
    ended = slot->next;
    if (slot == own)
      has_own = true;
    else
      sem_post(&slot->wakes);
  }
  return has_own;
}

/* Wakes the threads of requests that are held, of this client alone and of this waiter alone unless it is NULL: each looks whether it
   still has to be. */
static void wake_held(struct gate *gate, const struct client *client, const struct waiter *waiter)
{
  struct slot **at = &gate->held;
  while (*at) {
    struct slot *slot = *at;
    if ((client && slot->client != client) || (waiter && slot->waiter != waiter))
      at = &slot->next;
    else {
      *at = slot->next;
      sem_post(&slot->wakes);
    }
  }
}

/* From now on each request ends with this errno, those that wait too. The first fault stays. */
static void stop(struct gate *gate, int fault)
{
  if (gate->fault)
    return;
  gate->fault = fault;
  for (uint32_t token = 0; token < gate->tokens; token++) {
    struct slot *slot = gate->places[token].slot;
    if (!slot)
      continue;
    free_token(gate, token);
    slot->client->latest = NO_TOKEN;
    slot->fault = fault;
    sem_post(&slot->wakes);
  }
  pthread_cond_signal(&gate->timer_wakes);
  pthread_cond_broadcast(&gate->stops);
  wake_held(gate, NULL, NULL);
}

static void change_rates(struct gate *gate, struct client *client, uint64_t now);

/* The timer has something to do at this time. If it waits for longer, it is woken. */
static void set_timer(struct gate *gate, uint64_t nanos)
{
  if (nanos < gate->timer_until)
    pthread_cond_signal(&gate->timer_wakes);
}

/* A request is in the queue, as the latest one of its client. */
static void join_queue(struct gate *gate, const struct slot *slot)
{
  struct client *client = slot->client;
  gate->places[slot->token].earlier = client->latest;
  if (client->latest != NO_TOKEN)
    gate->places[client->latest].later = slot->token;
  client->latest = slot->token;
  gate->queued++;
  client->queued++;
  if (gate->next_look != NEVER)
    return;
  gate->next_look = slot->entered + gate->config.slice;
  set_timer(gate, gate->next_look);
}

/* A request is no longer in the queue. Once none of its client is, the client may have other rates. */
static void leave_queue(struct gate *gate, uint32_t token, uint64_t now)
{
  struct place left = gate->places[token];
  free_token(gate, token);
  *(left.later != NO_TOKEN ? &gate->places[left.later].earlier : &left.client->latest) = left.earlier;
  if (left.earlier != NO_TOKEN)
    gate->places[left.earlier].later = left.later;
  gate->queued--;
  gate->given_up -= !left.slot;
  left.client->queued--;
  if (left.client->is_changing && !left.client->queued)
    change_rates(gate, left.client, now);
}

/* A request is granted: its thread may use the device. If nobody waits for it any more, the grant is nobody's. A thread reads the clock
   before it has the lock, so a request may seem to come after its grant. */
static struct slot *grant(struct gate *gate, const struct dmc_pulled *pulled, uint64_t now)
{
  struct slot *slot = gate->places[pulled->token].slot;
  leave_queue(gate, pulled->token, now);
  if (!slot)
    return NULL;
  struct client *client = slot->client;
  uint64_t waited = slot->entered < now ? now - slot->entered : 0;
  client->grants[pulled->phase]++;
  client->costs[pulled->phase] += pulled->cost;
  client->bytes[pulled->phase] += slot->bytes;
  client->beyond += pulled->beyond;
  times_count(&client->waited, waited);
  buckets_count(&client->buckets[pulled->phase], waited);
  gate->under_way++;
  return slot;
}

/* The next request is due later: the timer waits for it. A moment past all clocks is waited for by the next event instead. */
static void wait_for_due(struct gate *gate, const struct dmc_pulled *pulled)
{
  uint64_t nanos;
  if (dmc_nanos_from_due(DMC_FINE_HZ, pulled->due_low, pulled->due_high, &nanos) != DMC_OK)
    return;
  gate->due = nanos;
  set_timer(gate, nanos);
}

/* The queue refused what it can't refuse: no request is granted any more. */
static void stop_for(struct gate *gate, const char *reason)
{
  if (!gate->fault)
    gate->reason = reason;
  stop(gate, EIO);
}

/* Grants what the queue grants now, while the device has room: returns the slots, to be woken without the lock. It is called when
   either may have changed. */
static struct slot *dispatch(struct gate *gate, uint64_t now)
{
  struct slot *granted = NULL, **last = &granted;
  struct dmc_pulled pulled = {.kind = DMC_GRANTED};
  gate->due = NEVER;
  while (!gate->fault && gate->queued && gate->under_way < gate->config.depth && pulled.kind == DMC_GRANTED) {
    if (dmc_queue_pull(&gate->queue, moment_of(now), &pulled) != DMC_OK)
      stop_for(gate, "the queue refuses to grant");
    else if (pulled.kind == DMC_GRANTED) {
      *last = grant(gate, &pulled, now);
      last = *last ? &(*last)->next : last;
      *last = NULL;
    } else if (pulled.kind == DMC_FUTURE)
      wait_for_due(gate, &pulled);
  }
  return granted;
}

/* ---- requests that are no longer wanted */

/* A waiter has gone: the waits for its requests of a client end, and these are to be cancelled. Returns a list of them, to be woken without
   the lock. */
static struct slot *give_up(struct gate *gate, struct waiter *waiter, struct client *client)
{
  struct slot *ended = NULL;
  waiter->has_gone = true;
  wake_held(gate, client, waiter);
  for (uint32_t token = client->latest; token != NO_TOKEN; token = gate->places[token].earlier) {
    struct slot *slot = gate->places[token].slot;
    if (!slot || slot->waiter != waiter)
      continue;
    gate->places[token].slot = NULL;
    gate->given_up++;
    client->cancelled++;
    slot->fault = ECANCELED;
    slot->next = ended;
    ended = slot;
  }
  return ended;
}

/* Takes a request out of the queue, which gives back what it was charged: each counts its own cost. */
static void cancel(struct gate *gate, uint32_t token, uint64_t now)
{
  uint32_t removed = 0;
  uint32_t code = dmc_queue_cancel(&gate->queue, gate->places[token].client->id, token, DMC_OTHERS, &removed);
  if (code == DMC_OK && removed == 1)
    leave_queue(gate, token, now);
  else
    stop_for(gate, "the queue does not have a request that is queued");
}

/* Cancels requests of a client that nobody waits for, from the latest to the earliest, so that each gives back all that it was charged:
   behind one that was cancelled, another gives back no more than that had left ("Slack" in docs/RULES.md). The queue walks over all
   requests of the client for each. */
static void cancel_latest(struct gate *gate, struct client *client, uint32_t *walked, uint64_t now)
{
  uint32_t token = client->latest;
  while (token != NO_TOKEN && *walked < MOST_WALKED && !gate->fault) {
    struct place place = gate->places[token];
    if (!place.slot) {
      *walked += client->queued;
      cancel(gate, token, now);
    }
    token = place.earlier;
  }
}

/* Cancels requests that nobody waits for, until the queue has walked over many. Returns over how many; none, if none is left. */
static uint32_t cancel_some(struct gate *gate, uint64_t now)
{
  uint32_t walked = 0;
  for (uint32_t token = 0; token < gate->tokens && gate->given_up && walked < MOST_WALKED && !gate->fault; token++) {
    struct place place = gate->places[token];
    if (place.client && !place.slot)
      cancel_latest(gate, place.client, &walked, now);
  }
  return walked;
}

/* Has the thread of a request ask, if no other one of its waiter does, and puts it before a list. */
static struct slot *choose(struct slot *slot, struct slot *asked)
{
  if (slot->waiter->is_asked || slot->waiter->has_gone)
    return asked;
  slot->waiter->is_asked = slot->must_ask = true;
  slot->next_asked = asked;
  return slot;
}

/* Has a thread of each waiter ask whether its requests are wanted: returns a list of these, to be woken without the lock. */
static struct slot *choose_asked(struct gate *gate)
{
  struct slot *asked = NULL;
  for (uint32_t token = 0; token < gate->tokens; token++)
    if (gate->places[token].slot)
      asked = choose(gate->places[token].slot, asked);
  for (struct slot *slot = gate->held; slot; slot = slot->next)
    asked = choose(slot, asked);
  return asked;
}

/* Wakes the threads of slots that are to ask. A slot stays until it is woken for that, even if it is granted before. */
static void wake_asked(struct slot *asked)
{
  while (asked) {
    struct slot *slot = asked;
    asked = slot->next_asked;
    sem_post(&slot->wakes);
  }
}

/* Asks whether a request is wanted. If it is not, none of its waiter is. They are cancelled at the next look, together with those of others
   that go meanwhile. */
static void ask(struct gate *gate, struct slot *slot)
{
  bool is_wanted = slot->waiter->is_wanted(slot->waiter);
  pthread_mutex_lock(&gate->lock);
  slot->must_ask = slot->waiter->is_asked = false;
  struct slot *ended = is_wanted ? NULL : give_up(gate, slot->waiter, slot->client);
  pthread_mutex_unlock(&gate->lock);
  wake(ended, NULL);
}

static void await_post(struct slot *slot)
{
  while (sem_wait(&slot->wakes) == -1)
    ; /* a signal has come */
}

/* Waits until the wait for a request has ended, or it is no longer held, and asks whether it is wanted when it is to. */
static void await_wake(struct gate *gate, struct slot *slot)
{
  for (await_post(slot); slot->must_ask; await_post(slot))
    ask(gate, slot);
}

/* ---- the timer */

static void forget_clients(struct gate *gate, uint64_t now);
static void register_kept(struct gate *gate, uint64_t now);

/* The queue marks clients idle and forgets old ones, and so does the gate. The queue says how many it forgot and not which: one
   that is kept is registered again at once, before any other takes its place, and another at its next request. */
static void clean(struct gate *gate, uint64_t now)
{
  uint32_t idled, erased;
  dmc_queue_clean(&gate->queue, moment_of(now), &idled, &erased);
  register_kept(gate, now);
  forget_clients(gate, now);
  gate->next_clean = now + gate->config.idle_seconds * SECOND / 4;
}

/* Has those who wait be asked. */
static void look_around(struct gate *gate, uint64_t now)
{
  struct slot *asked = choose_asked(gate);
  gate->next_look = gate->queued ? now + gate->config.slice : NEVER;
  pthread_mutex_unlock(&gate->lock);
  wake_asked(asked);
  pthread_mutex_lock(&gate->lock);
}

/* Cancels what nobody waits for, a part in one go, after which others may be due earlier. Between two goes others have the lock. Once
   nothing is left to cancel, those who wait are asked again. */
static void look(struct gate *gate, uint64_t now)
{
  if (!cancel_some(gate, now)) {
    look_around(gate, now);
    return;
  }
  uint64_t done = gate_now(gate);
  gate->due = now;
  gate->next_look = done + (done - now) / 4;
}

static uint64_t least(uint64_t a, uint64_t b)
{
  return a < b ? a : b;
}

/* Waits, with the lock, for a condition, until this time of the gate's clock at most. */
static void await(struct gate *gate, pthread_cond_t *condition, uint64_t nanos)
{
  uint64_t at = nanos < NEVER - gate->start ? gate->start + nanos : NEVER;
  struct timespec until = {.tv_sec = (time_t)(at / SECOND), .tv_nsec = (long)(at % SECOND)};
  pthread_cond_timedwait(condition, &gate->lock, &until);
}

static void sleep_until(struct gate *gate, uint64_t nanos)
{
  gate->timer_until = nanos;
  await(gate, &gate->timer_wakes, nanos);
  gate->timer_until = 0;
}

static void *keep_time(void *argument)
{
  struct gate *gate = argument;
  pthread_mutex_lock(&gate->lock);
  while (!gate->fault) {
    uint64_t now = gate_now(gate);
    if (gate->next_clean <= now)
      clean(gate, now);
    if (gate->next_look <= now)
      look(gate, now);
    else if (gate->due <= now)
      wake(dispatch(gate, now), NULL);
    else
      sleep_until(gate, least(gate->due, least(gate->next_clean, gate->next_look)));
  }
  pthread_mutex_unlock(&gate->lock);
  return NULL;
}

/* ---- clients */

static int by_name(const void *a, const void *b)
{
  return strcmp(((const struct client *)a)->name, ((const struct client *)b)->name);
}

static struct client *find(struct gate *gate, const char *name)
{
  struct client wanted = {.name = (char *)name};
  struct client **found = tfind(&wanted, &gate->names, by_name);
  return found ? *found : NULL;
}

static void free_client(struct client *client)
{
  free(client->name);
  free(client);
}

/* The client has a place in the queue, whether or not it had one, if the code is DMC_OK. */
static uint32_t try_to_register(struct gate *gate, const struct client *client, uint64_t now)
{
  const struct rates *rates = &client->rates;
  uint32_t code = dmc_queue_register(&gate->queue, client->id, rates->reservation, rates->weight, rates->limit, moment_of(now));
  return code == DMC_KNOWN ? DMC_OK : code;
}

static int register_client(struct gate *gate, const struct client *client, uint64_t now)
{
  return errno_of(try_to_register(gate, client, now));
}

static void register_kept(struct gate *gate, uint64_t now)
{
  for (const struct client *client = gate->first; client; client = client->next)
    if (client->is_kept)
      register_client(gate, client, now);
}

/* Gives the queue the rates that are wanted. It refuses those that give or take a reservation while a request of the client is
   queued: then they come with the grant of the last one. A client that it does not know gets them when it is registered. */
static void change_rates(struct gate *gate, struct client *client, uint64_t now)
{
  const struct rates *rates = &client->wanted;
  uint32_t code = dmc_queue_update(&gate->queue, client->id, rates->reservation, rates->weight, rates->limit, moment_of(now));
  bool was_changing = client->is_changing;
  client->is_changing = code == DMC_BUSY;
  if (code == DMC_OK || code == DMC_UNKNOWN)
    client->rates = *rates;
  else if (code != DMC_BUSY)
    stop_for(gate, "the queue refuses other rates");
  if (was_changing && !client->is_changing)
    wake_held(gate, client, NULL);
}

/* A client with memory for all that it needs, which the gate does not know yet. */
static struct client *new_client(const char *name, const struct rates *rates, bool is_kept)
{
  struct client *client = calloc(1, sizeof *client);
  if (!client)
    return NULL;
  client->name = strdup(name);
  client->rates = *rates;
  client->is_kept = is_kept;
  client->latest = NO_TOKEN;
  if (!client->name) {
    free(client);
    return NULL;
  }
  return client;
}

static int add_client(struct gate *gate, struct client *client)
{
  if (!client->is_kept && gate->others >= gate->config.most_others)
    return EBUSY;
  client->id = gate->next_id;
  client->last_request = gate_now(gate);
  if (!tsearch(client, &gate->names, by_name))
    return ENOMEM;
  int fault = client->is_kept ? register_client(gate, client, client->last_request) : 0;
  if (fault) {
    tdelete(client, &gate->names, by_name);
    return fault;
  }
  gate->next_id++;
  gate->others += !client->is_kept;
  client->link = gate->last;
  *gate->last = client;
  gate->last = &client->next;
  return 0;
}

static int make_client(struct gate *gate, const char *name, const struct rates *rates, bool is_kept, struct client **made)
{
  struct client *client = new_client(name, rates, is_kept);
  if (!client)
    return ENOMEM;
  int fault = add_client(gate, client);
  if (fault) {
    free_client(client);
    return fault;
  }
  *made = client;
  return 0;
}

static bool is_forgotten(const struct gate *gate, const struct client *client, uint64_t now)
{
  uint64_t age = now - client->last_request;
  bool is_old = !client->requests || gate->config.erase_seconds * SECOND < age;
  return !client->is_kept && !client->users && !client->queued && is_old;
}

static void forget(struct gate *gate, struct client *client)
{
  *client->link = client->next;
  if (client->next)
    client->next->link = client->link;
  else
    gate->last = client->link;
  tdelete(client, &gate->names, by_name);
  free_client(client);
  gate->others--;
}

/* Forgets the clients that are not kept and that nobody uses, if they have had no request for so long, or none ever. */
static void forget_clients(struct gate *gate, uint64_t now)
{
  struct client *client = gate->first;
  while (client) {
    struct client *next = client->next;
    if (is_forgotten(gate, client, now))
      forget(gate, client);
    client = next;
  }
}

/* The client is kept, or no longer. One that is kept has a place in the queue. */
static int keep(struct gate *gate, struct client *client, bool is_kept, uint64_t now)
{
  if (client->is_kept == is_kept)
    return 0;
  int fault = is_kept ? register_client(gate, client, now) : 0;
  if (fault)
    return fault;
  client->is_kept = is_kept;
  if (is_kept)
    gate->others--;
  else
    gate->others++;
  return 0;
}

static int change_client(struct gate *gate, const char *name, const struct rates *rates, bool is_kept, uint64_t now)
{
  struct client *client = find(gate, name);
  if (!client)
    return is_kept ? make_client(gate, name, rates, true, &client) : 0;
  int fault = keep(gate, client, is_kept, now);
  if (fault)
    return fault;
  client->wanted = *rates;
  change_rates(gate, client, now);
  if (is_forgotten(gate, client, now))
    forget(gate, client);
  return 0;
}

/* What a request for so many bytes costs: at least 1. */
static uint32_t cost_of(const struct gate_config *config, uint32_t bytes)
{
  uint32_t units = config->unit ? bytes / config->unit + (bytes % config->unit != 0) : 1;
  return units ? units : 1;
}

/* Adds a request to the queue. A client that it does not know, or has forgotten, is registered before. */
static uint32_t add_request(struct gate *gate, const struct slot *slot)
{
  const struct client *client = slot->client;
  uint32_t cost = cost_of(&gate->config, slot->bytes);
  uint64_t moment = moment_of(slot->entered);
  uint32_t code = dmc_queue_add_single(&gate->queue, client->id, slot->token, cost, moment);
  if (code != DMC_UNKNOWN)
    return code;
  code = try_to_register(gate, client, slot->entered);
  return code == DMC_OK ? dmc_queue_add_single(&gate->queue, client->id, slot->token, cost, moment) : code;
}

/* Queues a request of a client. One whose client finds no place, and one over its limit, is refused for lack of memory, since NBD has no
   other word for it. What the queue refuses for any other reason is a fault of it, which is counted, and whose first code is kept. */
static int queue_request(struct gate *gate, const struct slot *slot)
{
  struct client *client = slot->client;
  uint32_t code = add_request(gate, slot);
  int fault = code == DMC_CLIENTS ? ENOMEM : errno_of(code);
  client->refused += code == DMC_OVER_LIMIT;
  client->queue_faults += fault == EIO;
  if (fault == EIO && gate->refusal == DMC_OK)
    gate->refusal = code;
  return fault;
}

/* Holds a request, without the lock, until the rates of its client are no longer changing, as long as it is wanted. */
static void await_rates(struct gate *gate, struct slot *slot)
{
  while (slot->client->is_changing && !gate->fault && !slot->waiter->has_gone) {
    slot->next = gate->held;
    gate->held = slot;
    pthread_mutex_unlock(&gate->lock);
    await_wake(gate, slot);
    pthread_mutex_lock(&gate->lock);
  }
}

/* Queues the request that a slot waits for. */
static int submit(struct gate *gate, struct slot *slot)
{
  struct client *client = slot->client;
  await_rates(gate, slot);
  int fault = gate->fault ? gate->fault : slot->waiter->has_gone ? ECANCELED : take_token(gate, slot);
  if (fault)
    return fault;
  fault = queue_request(gate, slot);
  if (fault) {
    free_token(gate, slot->token);
    return fault;
  }
  join_queue(gate, slot);
  client->requests++;
  client->last_request = slot->entered;
  return 0;
}

/* ---- what callers use */

static int open_queue(struct gate *gate, const struct gate_config *config)
{
  struct dmc_config asked = DMC_CONFIG(DMC_FINE_HZ);
  asked.idle_age = config->idle_seconds * asked.hz;
  asked.erase_age = config->erase_seconds * asked.hz;
  asked.at_limit = config->at_limit;
  asked.threshold = moment_of(config->threshold_millis * (SECOND / 1000));
  asked.shares = config->shares;
  return errno_of(dmc_queue_new(&gate->queue, &asked));
}

/* A lock that is held for less than a microsecond: who finds it taken tries for a while before it sleeps. None of these calls can
   fail, of a lock within a process. */
static void init_lock(pthread_mutex_t *lock)
{
  pthread_mutexattr_t short_time;
  pthread_mutexattr_init(&short_time);
  pthread_mutexattr_settype(&short_time, PTHREAD_MUTEX_ADAPTIVE_NP);
  pthread_mutex_init(lock, &short_time);
  pthread_mutexattr_destroy(&short_time);
}

/* Conditions are waited for by the gate's clock. None of these calls can fail, of what is within a process. */
static void init_conditions(struct gate *gate)
{
  pthread_condattr_t by_clock;
  pthread_condattr_init(&by_clock);
  pthread_condattr_setclock(&by_clock, CLOCK_MONOTONIC);
  pthread_cond_init(&gate->timer_wakes, &by_clock);
  pthread_cond_init(&gate->stops, &by_clock);
  pthread_condattr_destroy(&by_clock);
}

int gate_open(struct gate *gate, const struct gate_config *config)
{
  gate->config = *config;
  gate->start = clock_nanos();
  gate->due = NEVER;
  gate->next_clean = config->idle_seconds * SECOND / 4;
  gate->next_look = NEVER;
  gate->last = &gate->first;
  gate->free_token = NO_TOKEN;
  int fault = open_queue(gate, config);
  if (fault)
    return fault;
  init_lock(&gate->lock);
  init_conditions(gate);
  return 0;
}

int gate_start(struct gate *gate)
{
  int fault = pthread_create(&gate->timer, NULL, keep_time, gate);
  gate->has_timer = !fault;
  return fault;
}

void gate_stop(struct gate *gate, int fault)
{
  pthread_mutex_lock(&gate->lock);
  stop(gate, fault);
  pthread_mutex_unlock(&gate->lock);
}

bool gate_await_stop(struct gate *gate, uint64_t nanos)
{
  uint64_t until = gate_now(gate) + nanos;
  pthread_mutex_lock(&gate->lock);
  while (!gate->fault && gate_now(gate) < until)
    await(gate, &gate->stops, until);
  bool is_stopped = gate->fault != 0;
  pthread_mutex_unlock(&gate->lock);
  return is_stopped;
}

static void free_clients(struct gate *gate)
{
  while (gate->first) {
    struct client *client = gate->first;
    gate->first = client->next;
    tdelete(client, &gate->names, by_name);
    free_client(client);
  }
}

void gate_close(struct gate *gate)
{
  gate_stop(gate, ESHUTDOWN);
  if (gate->has_timer)
    pthread_join(gate->timer, NULL);
  free_clients(gate);
  free(gate->places);
  dmc_queue_free(&gate->queue);
  pthread_cond_destroy(&gate->timer_wakes);
  pthread_cond_destroy(&gate->stops);
  pthread_mutex_destroy(&gate->lock);
}

int gate_client(struct gate *gate, const char *name, const struct rates *rates, bool is_kept, struct client **client)
{
  int fault = 0;
  pthread_mutex_lock(&gate->lock);
  struct client *found = find(gate, name);
  if (!found && rates)
    fault = make_client(gate, name, rates, is_kept, &found);
  if (found)
    found->users++;
  *client = found;
  pthread_mutex_unlock(&gate->lock);
  return fault ? fault : found ? 0 : ENOENT;
}

int gate_change(struct gate *gate, const char *name, const struct rates *rates, bool is_kept)
{
  pthread_mutex_lock(&gate->lock);
  int fault = change_client(gate, name, rates, is_kept, gate_now(gate));
  pthread_mutex_unlock(&gate->lock);
  return fault;
}

void gate_change_others(struct gate *gate, const struct rates *rates)
{
  pthread_mutex_lock(&gate->lock);
  uint64_t now = gate_now(gate);
  for (struct client *client = gate->first; client; client = client->next)
    if (!client->is_kept) {
      client->wanted = *rates;
      change_rates(gate, client, now);
    }
  pthread_mutex_unlock(&gate->lock);
}

void gate_resize(struct gate *gate, uint32_t depth, uint32_t most_others)
{
  pthread_mutex_lock(&gate->lock);
  gate->config.depth = depth;
  gate->config.most_others = most_others;
  wake(dispatch(gate, gate_now(gate)), NULL);
  pthread_mutex_unlock(&gate->lock);
}

void gate_release(struct gate *gate, struct client *client)
{
  pthread_mutex_lock(&gate->lock);
  client->users--;
  if (is_forgotten(gate, client, gate_now(gate)))
    forget(gate, client);
  pthread_mutex_unlock(&gate->lock);
}

/* Waits until a request is granted, and asks meanwhile, and then, whether it is wanted. */
static int await_grant(struct gate *gate, struct slot *slot)
{
  await_wake(gate, slot);
  if (slot->fault || slot->waiter->is_wanted(slot->waiter))
    return slot->fault;
  gate_leave(gate);
  return ECANCELED;
}

int gate_enter(struct gate *gate, struct client *client, uint32_t bytes, struct waiter *waiter)
{
  struct slot slot = {.client = client, .waiter = waiter, .bytes = bytes, .entered = gate_now(gate)};
  struct slot *granted = NULL;
  sem_init(&slot.wakes, 0, 0); /* which can't fail, of 0 */
  pthread_mutex_lock(&gate->lock);
  int fault = submit(gate, &slot);
  if (!fault)
    granted = dispatch(gate, slot.entered);
  pthread_mutex_unlock(&gate->lock);
  bool is_granted = wake(granted, &slot);
  if (!fault && !is_granted)
    fault = await_grant(gate, &slot);
  sem_destroy(&slot.wakes);
  return fault;
}

/* The device is done with a request; of a client whose request it ended with an error, or of NULL. */
static void leave(struct gate *gate, struct client *failed)
{
  uint64_t now = gate_now(gate);
  pthread_mutex_lock(&gate->lock);
  gate->under_way--;
  if (failed)
    failed->errors++;
  struct slot *granted = dispatch(gate, now);
  pthread_mutex_unlock(&gate->lock);
  wake(granted, NULL);
}

void gate_leave(struct gate *gate)
{
  leave(gate, NULL);
}

void gate_leave_failed(struct gate *gate, struct client *client)
{
  leave(gate, client);
}
