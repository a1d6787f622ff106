/* Tests of the gate and of its times, without nbdkit. They are linked with -Wl,--wrap for malloc, calloc, realloc and strdup, so that
   an allocation can be refused. */
#define _GNU_SOURCE
#include <errno.h>
#include <stdatomic.h>
#include <stdio.h>
#include <stdlib.h>
#include <string.h>
#include <unistd.h>

#include "gate.h"

static int failures;

#define CHECK(holds)                                                                \
  do {                                                                              \
    if (!(holds)) {                                                                 \
      printf("%s:%d: %s does not hold\n", __FILE__, __LINE__, #holds);              \
      failures++;                                                                   \
    }                                                                               \
  } while (0)

/* ---- allocations */

/* How many allocations succeed before one is refused. */
static unsigned long granted = -1ul;

static bool is_refused(void)
{
  return granted != -1ul && granted-- == 0;
}

void *__real_malloc(size_t size);
void *__real_calloc(size_t count, size_t size);
void *__real_realloc(void *at, size_t size);
char *__real_strdup(const char *text);

void *__wrap_malloc(size_t size)
{
  return is_refused() ? NULL : __real_malloc(size);
}

void *__wrap_calloc(size_t count, size_t size)
{
  return is_refused() ? NULL : __real_calloc(count, size);
}

void *__wrap_realloc(void *at, size_t size)
{
  return is_refused() ? NULL : __real_realloc(at, size);
}

char *__wrap_strdup(const char *text)
{
  return is_refused() ? NULL : __real_strdup(text);
}

/* ---- tests */

static const struct gate_config one_at_once = {
  .depth = 1, .at_limit = DMC_WAIT, .shares = DMC_VIRTUAL, .idle_seconds = 60, .erase_seconds = 60, .most_others = 65536,
  .slice = 10000000};

static struct rates rates_of(uint32_t reservation, uint32_t weight, uint32_t limit)
{
  struct rates asked = {reservation, weight, limit}, found = {0, 0, 0};
  CHECK(rates_round(&asked, &found));
  return found;
}

static void rates(void)
{
  struct rates found = rates_of(1500, 1, 500);
  CHECK(found.reservation == 1512 && found.weight == 1 && found.limit == 495);
  found = rates_of(500, 1, 500);
  CHECK(found.reservation == 495 && found.limit == 495);
  found = rates_of(0, 19, 0);
  CHECK(found.reservation == 0 && found.limit == 0 && found.weight == 18);
  struct rates asked = {DMC_FINE_HZ + 1u, 1, 0};
  CHECK(!rates_round(&asked, &found));
  asked = (struct rates){0, 0, 0};
  CHECK(!rates_round(&asked, &found));
}

static void percentiles(void)
{
  static struct times times;
  CHECK(times_mean(&times) == 0 && times_percentile(&times, 99) == 0);
  for (uint64_t micros = 1; micros <= 1000; micros++)
    times_count(&times, micros * 1000);
  CHECK(times.count == 1000 && times.greatest == 1000000 && times_mean(&times) == 500500);
  uint64_t most = times_percentile(&times, 99);
  CHECK(990000 <= most && most <= 990000 * 9 / 8);
  CHECK(times_percentile(&times, 100) == 1000000);
  times_count(&times, UINT64_MAX / 2);
  CHECK(times_percentile(&times, 100) == UINT64_MAX / 2);
}

/* A waiter that stays, and that is asked if its request had to wait. */
struct patient {
  struct waiter waiter;
  bool is_asked;
};

static bool stays(struct waiter *waiter)
{
  ((struct patient *)waiter)->is_asked = true;
  return true;
}

/* Enters with a request that stays wanted, and says whether it had to wait. */
static int enter_for(struct gate *gate, struct client *client, uint32_t bytes, bool *has_waited)
{
  struct patient patient = {.waiter = {.is_wanted = stays}};
  int fault = gate_enter(gate, client, bytes, &patient.waiter);
  *has_waited = patient.is_asked;
  return fault;
}

/* A thread's request. */
struct entry {
  struct gate *gate;
  struct client *client;
  uint32_t bytes;
  int fault;
};

static void *enter(void *argument)
{
  struct entry *entry = argument;
  bool has_waited;
  entry->fault = enter_for(entry->gate, entry->client, entry->bytes, &has_waited);
  return NULL;
}

static uint32_t queued(struct gate *gate, const struct client *client)
{
  pthread_mutex_lock(&gate->lock);
  uint32_t queued = client->queued;
  pthread_mutex_unlock(&gate->lock);
  return queued;
}

static void await_queued(struct gate *gate, const struct client *client, uint32_t count)
{
  while (queued(gate, client) != count)
    usleep(1000);
}

/* A request that finds the device busy waits until that is left, and at a stop ends with its errno. */
static void waiting(void)
{
  struct gate gate = {0};
  struct client *client, *same;
  struct rates none = rates_of(0, 1, 0);
  pthread_t thread;
  bool has_waited = true;
  CHECK(gate_open(&gate, &one_at_once) == 0 && gate_start(&gate) == 0);
  CHECK(gate_client(&gate, "a", NULL, false, &client) == ENOENT);
  CHECK(gate_client(&gate, "a", &none, false, &client) == 0);
  CHECK(gate_client(&gate, "a", NULL, false, &same) == 0 && same == client && client->users == 2);
  CHECK(enter_for(&gate, client, 0, &has_waited) == 0 && !has_waited);
  struct entry entry = {&gate, client, 0, -1};
  pthread_create(&thread, NULL, enter, &entry);
  await_queued(&gate, client, 1);
  gate_leave(&gate);
  pthread_join(thread, NULL);
  CHECK(entry.fault == 0);
  pthread_create(&thread, NULL, enter, &entry);
  await_queued(&gate, client, 1);
  gate_stop(&gate, ESHUTDOWN);
  pthread_join(thread, NULL);
  CHECK(entry.fault == ESHUTDOWN);
  CHECK(enter_for(&gate, client, 0, &has_waited) == ESHUTDOWN);
  CHECK(client->requests == 3 && client->grants[DMC_PRIORITY] == 2 && client->grants[DMC_RESERVATION] == 0);
  gate_close(&gate);
}

static void *stop_later(void *gate)
{
  usleep(20000);
  gate_stop(gate, ESHUTDOWN);
  return NULL;
}

/* Who waits for a stop waits as long as asked, and no longer than until it comes. */
static void awaited_stop(void)
{
  struct gate gate = {0};
  pthread_t thread;
  CHECK(gate_open(&gate, &one_at_once) == 0);
  CHECK(!gate_await_stop(&gate, 20000000) && 20000000 <= gate_now(&gate));
  pthread_create(&thread, NULL, stop_later, &gate);
  uint64_t hour = 3600 * UINT64_C(1000000000);
  CHECK(gate_await_stop(&gate, hour) && gate_now(&gate) < hour);
  CHECK(gate_await_stop(&gate, hour) && gate_now(&gate) < hour);
  pthread_join(thread, NULL);
  gate_close(&gate);
}

/* What the device ended with an error is counted for its client, and its place is free as after any other. */
static void failed(void)
{
  struct gate gate = {0};
  struct client *client, *other;
  struct rates none = rates_of(0, 1, 0);
  bool has_waited;
  CHECK(gate_open(&gate, &one_at_once) == 0);
  CHECK(gate_client(&gate, "a", &none, true, &client) == 0 && gate_client(&gate, "b", &none, true, &other) == 0);
  for (int i = 0; i < 3; i++) {
    CHECK(enter_for(&gate, client, 0, &has_waited) == 0 && !has_waited);
    gate_leave_failed(&gate, client);
  }
  CHECK(enter_for(&gate, other, 0, &has_waited) == 0 && !has_waited);
  gate_leave(&gate);
  CHECK(client->errors == 3 && other->errors == 0 && gate.under_way == 0);
  gate_close(&gate);
}

/* A request that the queue refuses, and not for its memory, its room or a limit, is counted, and the first reason is known. */
static void queue_faults(void)
{
  struct gate gate = {0};
  struct client *client;
  struct rates none = rates_of(0, 1, 0);
  bool has_waited;
  CHECK(gate_open(&gate, &one_at_once) == 0 && gate_client(&gate, "a", &none, true, &client) == 0);
  CHECK(enter_for(&gate, client, 0, &has_waited) == 0 && client->queue_faults == 0 && gate.refusal == DMC_OK);
  gate_leave(&gate);
  struct dmc_queue queue = gate.queue;
  gate.queue = dmc_queue_none();
  CHECK(enter_for(&gate, client, 0, &has_waited) == EIO && client->queue_faults == 1 && gate.refusal == DMC_NONE_HELD);
  gate.queue = queue;
  uint32_t weight = client->rates.weight;
  client->id = 1; /* which the queue does not know, and does not register with these rates */
  client->rates.weight = 0;
  CHECK(enter_for(&gate, client, 0, &has_waited) == EIO && client->queue_faults == 2 && gate.refusal == DMC_NONE_HELD);
  client->id = 0;
  client->rates.weight = weight;
  CHECK(enter_for(&gate, client, 0, &has_waited) == 0 && client->queue_faults == 2 && client->requests == 2 && !gate.reason);
  gate_leave(&gate);
  gate_close(&gate);
}

/* What requests cost by their bytes: as many units as they begin, and 1 at least; each 1 without a unit. */
static void sizes(void)
{
  static const struct {
    uint32_t unit, bytes, cost;
  } rows[] = {{4096, 0, 1}, {4096, 1, 1}, {4096, 4096, 1}, {4096, 4097, 2}, {4096, 1 << 20, 256}, {1, UINT32_MAX, UINT32_MAX}, {0, 1 << 20, 1}};
  for (size_t i = 0; i < sizeof rows / sizeof *rows; i++) {
    struct gate gate = {0};
    struct gate_config config = one_at_once;
    struct rates none = rates_of(0, 1, 0);
    struct client *client;
    bool has_waited;
    config.unit = rows[i].unit;
    CHECK(gate_open(&gate, &config) == 0 && gate_client(&gate, "a", &none, true, &client) == 0);
    CHECK(enter_for(&gate, client, rows[i].bytes, &has_waited) == 0 && !has_waited);
    CHECK(client->costs[DMC_PRIORITY] == rows[i].cost && client->bytes[DMC_PRIORITY] == rows[i].bytes);
    CHECK(client->costs[DMC_RESERVATION] == 0 && client->bytes[DMC_RESERVATION] == 0);
    gate_leave(&gate);
    gate_close(&gate);
  }
}

/* A request's cost counts by its client's limit: after one of cost 4 the next is due four steps later. */
static void limit_by_cost(void)
{
  struct gate gate = {0};
  struct gate_config config = one_at_once;
  struct client *slow;
  struct rates twice = rates_of(0, 1, 2);
  bool has_waited;
  config.unit = 512;
  config.at_limit = DMC_REJECT;
  config.threshold_millis = 2000; /* four steps of a limit of 2 a second */
  CHECK(gate_open(&gate, &config) == 0 && gate_client(&gate, "slow", &twice, true, &slow) == 0);
  CHECK(enter_for(&gate, slow, 5 * 512, &has_waited) == ENOMEM && slow->refused == 1);
  CHECK(gate.queued == 0 && slow->requests == 0);
  gate_close(&gate);
}

/* A request that would wait for its limit longer than the threshold is refused at once, and leaves no trace but a count. */
static void over_limit(void)
{
  struct gate gate = {0};
  struct gate_config config = one_at_once;
  struct client *slow, *other;
  struct rates once = rates_of(0, 1, 1), none = rates_of(0, 1, 0);
  pthread_t thread;
  bool has_waited = true;
  config.unit = 512;
  config.at_limit = DMC_REJECT;
  config.threshold_millis = 5000;
  CHECK(gate_open(&gate, &config) == 0 && gate_start(&gate) == 0);
  CHECK(gate_client(&gate, "slow", &once, true, &slow) == 0 && gate_client(&gate, "other", &none, true, &other) == 0);
  struct entry entry = {&gate, slow, 5 * 512, -1};
  pthread_create(&thread, NULL, enter, &entry); /* due at the fifth second */
  await_queued(&gate, slow, 1);
  CHECK(enter_for(&gate, slow, 5 * 512, &has_waited) == ENOMEM && !has_waited); /* would be due at the tenth one */
  CHECK(gate.queued == 1 && slow->queued == 1 && slow->requests == 1 && slow->refused == 1);
  CHECK(enter_for(&gate, other, 0, &has_waited) == 0 && !has_waited && other->refused == 0);
  gate_leave(&gate);
  pthread_join(thread, NULL);
  CHECK(entry.fault == 0 && slow->grants[DMC_PRIORITY] == 1);
  gate_close(&gate);
}

/* At its limit a client waits for the timer. */
static void due_later(void)
{
  struct gate gate = {0};
  struct client *client;
  struct rates ten = rates_of(0, 1, 10);
  bool has_waited = false;
  CHECK(gate_open(&gate, &one_at_once) == 0 && gate_start(&gate) == 0);
  CHECK(gate_client(&gate, "a", &ten, true, &client) == 0);
  uint64_t before = gate_now(&gate);
  for (int i = 0; i < 4; i++) {
    CHECK(enter_for(&gate, client, 0, &has_waited) == 0);
    gate_leave(&gate);
  }
  CHECK(has_waited && 290000000 < gate_now(&gate) - before);
  gate_close(&gate);
}

/* The queue has at most 65,536 clients. */
static void most_clients(void)
{
  struct gate gate = {0};
  struct client *client;
  struct rates none = rates_of(0, 1, 0);
  char name[16];
  CHECK(gate_open(&gate, &one_at_once) == 0);
  for (int i = 0; i < 65536; i++) {
    snprintf(name, sizeof name, "%d", i);
    CHECK(gate_client(&gate, name, &none, false, &client) == 0);
  }
  CHECK(gate_client(&gate, "one more", &none, false, &client) == EBUSY);
  CHECK(gate_client(&gate, "65535", &none, false, &client) == 0);
  gate_close(&gate);
}

/* A client that is not kept is forgotten if nobody uses it; one that is used is registered again. */
static void forgotten(void)
{
  struct gate gate = {0};
  struct client *used, *unused, *kept;
  struct rates none = rates_of(0, 1, 0);
  struct gate_config config = one_at_once;
  config.idle_seconds = config.erase_seconds = 1;
  bool has_waited;
  CHECK(gate_open(&gate, &config) == 0 && gate_start(&gate) == 0);
  CHECK(gate_client(&gate, "used", &none, false, &used) == 0);
  CHECK(gate_client(&gate, "kept", &none, true, &kept) == 0);
  CHECK(gate_client(&gate, "unused", &none, false, &unused) == 0);
  gate_release(&gate, unused);
  gate_release(&gate, kept);
  sleep(2);
  CHECK(gate_client(&gate, "unused", NULL, false, &unused) == ENOENT);
  CHECK(gate_client(&gate, "kept", NULL, false, &kept) == 0);
  uint32_t clients = 9, requests = 9;
  CHECK(dmc_queue_counts(&gate.queue, &clients, &requests) == DMC_OK && clients == 1 && requests == 0);
  CHECK(enter_for(&gate, used, 0, &has_waited) == 0);
  gate_leave(&gate);
  CHECK(enter_for(&gate, kept, 0, &has_waited) == 0);
  gate_leave(&gate);
  gate_close(&gate);
}

/* A client that is kept has its place in the queue after a pause, though others have taken all that are left. */
static void kept_place(void)
{
  struct gate gate = {0};
  struct client *kept, *other;
  struct rates none = rates_of(0, 1, 0);
  struct gate_config config = one_at_once;
  config.idle_seconds = config.erase_seconds = 1;
  bool has_waited;
  uint32_t code = DMC_OK, others = 0;
  CHECK(gate_open(&gate, &config) == 0 && gate_start(&gate) == 0);
  CHECK(gate_client(&gate, "kept", &none, true, &kept) == 0);
  CHECK(gate_client(&gate, "other", &none, false, &other) == 0);
  sleep(2);
  pthread_mutex_lock(&gate.lock);
  while ((code = dmc_queue_register(&gate.queue, 1000 + others, 0, 1, 0, UINT64_C(1) << 50)) == DMC_OK)
    others++;
  CHECK(code == DMC_CLIENTS && others == 65535);
  pthread_mutex_unlock(&gate.lock);
  CHECK(enter_for(&gate, kept, 0, &has_waited) == 0);
  gate_leave(&gate);
  CHECK(enter_for(&gate, other, 0, &has_waited) == ENOMEM);
  gate_close(&gate);
}

/* A client gets other rates. A reservation comes once its queued requests are granted, and the next one waits for that. */
static void changed(void)
{
  struct gate gate = {0};
  struct client *client, *other;
  struct rates none = rates_of(0, 1, 0), more = rates_of(1000, 2, 0), limited = rates_of(10, 3, 1000);
  pthread_t threads[2];
  bool has_waited;
  CHECK(gate_open(&gate, &one_at_once) == 0 && gate_start(&gate) == 0);
  CHECK(gate_client(&gate, "a", &none, true, &client) == 0 && gate_client(&gate, "b", &none, false, &other) == 0);
  CHECK(enter_for(&gate, other, 0, &has_waited) == 0);
  struct entry first = {&gate, client, 0, -1}, second = {&gate, client, 0, -1};
  pthread_create(&threads[0], NULL, enter, &first);
  await_queued(&gate, client, 1);
  CHECK(gate_change(&gate, "a", &more, true) == 0 && client->is_changing && client->rates.reservation == 0);
  pthread_create(&threads[1], NULL, enter, &second);
  usleep(20000);
  CHECK(queued(&gate, client) == 1);
  gate_leave(&gate);
  pthread_join(threads[0], NULL);
  await_queued(&gate, client, 1);
  CHECK(!client->is_changing && client->rates.reservation == more.reservation && client->rates.weight == 2);
  gate_leave(&gate);
  pthread_join(threads[1], NULL);
  gate_leave(&gate);
  CHECK(first.fault == 0 && second.fault == 0 && client->requests == 2);
  CHECK(client->grants[DMC_PRIORITY] == 1 && client->grants[DMC_RESERVATION] == 1);
  CHECK(client->buckets[DMC_PRIORITY].counts[0] == 0 && client->buckets[DMC_PRIORITY].sum + client->buckets[DMC_RESERVATION].sum == client->waited.sum);
  gate_change_others(&gate, &limited);
  CHECK(other->rates.limit == 990 && client->rates.limit == 0);
  gate_close(&gate);
}

/* A client that is no longer kept is forgotten once nobody uses it; one of the default may become one that is kept. */
static void kept_and_not(void)
{
  struct gate gate = {0};
  struct client *client, *other;
  struct rates none = rates_of(0, 1, 0), more = rates_of(10, 2, 0);
  CHECK(gate_open(&gate, &one_at_once) == 0);
  CHECK(gate_client(&gate, "a", &none, true, &client) == 0 && gate.others == 0);
  CHECK(gate_change(&gate, "a", &none, false) == 0 && gate.others == 1);
  gate_release(&gate, client);
  CHECK(gate_client(&gate, "a", NULL, false, &client) == ENOENT && gate.others == 0);
  CHECK(gate_client(&gate, "b", &none, false, &other) == 0 && gate.others == 1);
  CHECK(gate_change(&gate, "b", &more, true) == 0 && gate.others == 0 && other->rates.reservation == 10);
  gate_release(&gate, other);
  CHECK(gate_client(&gate, "b", NULL, false, &other) == 0);
  CHECK(gate_change(&gate, "new", &more, true) == 0 && gate_client(&gate, "new", NULL, false, &other) == 0);
  CHECK(gate_change(&gate, "nobody", &more, false) == 0 && gate_client(&gate, "nobody", NULL, false, &other) == ENOENT);
  gate_close(&gate);
}

/* More room at the device serves who waits. */
static void resized(void)
{
  struct gate gate = {0};
  struct client *client;
  struct rates none = rates_of(0, 1, 0);
  pthread_t thread;
  bool has_waited;
  CHECK(gate_open(&gate, &one_at_once) == 0 && gate_start(&gate) == 0 && gate_client(&gate, "a", &none, true, &client) == 0);
  CHECK(enter_for(&gate, client, 0, &has_waited) == 0);
  struct entry entry = {&gate, client, 0, -1};
  pthread_create(&thread, NULL, enter, &entry);
  await_queued(&gate, client, 1);
  gate_resize(&gate, 2, 1);
  pthread_join(thread, NULL);
  CHECK(entry.fault == 0 && gate.under_way == 2 && gate.config.most_others == 1);
  gate_leave(&gate);
  gate_leave(&gate);
  gate_close(&gate);
}

/* How often a thread of `crowded` uses the device, and how many use it at once. */
#define ROUNDS 2000
static atomic_uint users, most_users;

struct rounds {
  struct gate *gate;
  struct client *client;
  unsigned served, refused;
};

static void *use(void *argument)
{
  struct rounds *rounds = argument;
  bool has_waited;
  for (unsigned i = 0; i < ROUNDS; i++) {
    if (enter_for(rounds->gate, rounds->client, 0, &has_waited)) {
      rounds->refused++;
      continue;
    }
    unsigned now = ++users, most = most_users;
    while (most < now && !atomic_compare_exchange_weak(&most_users, &most, now))
      ;
    rounds->served++;
    users--;
    gate_leave(rounds->gate);
  }
  return NULL;
}

/* Many threads: each request is granted once, no more of them are at the device than may be, and a stop ends all that wait. */
static void crowded(void)
{
  struct gate gate = {0};
  struct gate_config config = one_at_once;
  config.depth = 3;
  struct client *clients[2];
  struct rates none = rates_of(0, 1, 0);
  struct rounds rounds[16];
  pthread_t threads[16];
  unsigned served[2] = {0, 0}, refused = 0;
  CHECK(gate_open(&gate, &config) == 0 && gate_start(&gate) == 0);
  CHECK(gate_client(&gate, "a", &none, true, &clients[0]) == 0 && gate_client(&gate, "b", &none, true, &clients[1]) == 0);
  for (int i = 0; i < 16; i++) {
    rounds[i] = (struct rounds){.gate = &gate, .client = clients[i % 2]};
    pthread_create(&threads[i], NULL, use, &rounds[i]);
  }
  for (int i = 0; i < 16; i++) {
    if (i == 14) /* two threads, or none, are left */
      gate_stop(&gate, ESHUTDOWN);
    pthread_join(threads[i], NULL);
    served[i % 2] += rounds[i].served;
    refused += rounds[i].refused;
  }
  for (int i = 0; i < 2; i++)
    CHECK(clients[i]->grants[DMC_PRIORITY] == served[i] && clients[i]->waited.count == served[i] && clients[i]->queued <= 1);
  CHECK(14 * ROUNDS <= served[0] + served[1] && served[0] + served[1] + refused == 16 * ROUNDS);
  CHECK(0 < most_users && most_users <= 3 && gate.under_way == 0);
  gate_close(&gate);
}

/* ---- requests that are given up */

/* Whoever waits for requests, until it has gone. What it does when it is asked, if anything, is a test's. */
struct guest {
  struct waiter waiter;
  struct gate *gate;
  atomic_bool has_gone;
  atomic_uint asked;
  void (*when_asked)(struct guest *);
};

static bool is_here(struct waiter *waiter)
{
  struct guest *guest = (struct guest *)waiter;
  if (guest->asked++ == 0 && guest->when_asked)
    guest->when_asked(guest);
  return !guest->has_gone;
}

/* A thread with a request of a guest. */
struct call {
  struct gate *gate;
  struct client *client;
  struct guest *guest;
  uint32_t bytes;
  int fault;
  pthread_t thread;
};

static void *run_call(void *argument)
{
  struct call *call = argument;
  call->fault = gate_enter(call->gate, call->client, call->bytes, &call->guest->waiter);
  return NULL;
}

static void begin_call(struct call *call, struct gate *gate, struct client *client, struct guest *guest, uint32_t bytes)
{
  *call = (struct call){.gate = gate, .client = client, .guest = guest, .bytes = bytes, .fault = -1};
  guest->gate = gate;
  guest->waiter.is_wanted = is_here;
  pthread_create(&call->thread, NULL, run_call, call);
}

/* Begins a call, and waits until its request is queued. */
static void queue_call(struct call *call, struct gate *gate, struct client *client, struct guest *guest, uint32_t bytes)
{
  uint32_t before = queued(gate, client);
  begin_call(call, gate, client, guest, bytes);
  await_queued(gate, client, before + 1);
}

static int end_of(struct call *call)
{
  pthread_join(call->thread, NULL);
  return call->fault;
}

/* How many requests the queue itself has. */
static uint32_t queue_size(struct gate *gate)
{
  uint32_t clients = 0, requests = 0;
  pthread_mutex_lock(&gate->lock);
  CHECK(dmc_queue_counts(&gate->queue, &clients, &requests) == DMC_OK);
  pthread_mutex_unlock(&gate->lock);
  return requests;
}

/* One of three that wait is given up: it leaves the queue, and the others are granted. */
static void given_up(void)
{
  struct gate gate = {0};
  struct client *client;
  struct rates none = rates_of(0, 1, 0);
  struct guest guests[3] = {{.gate = NULL}};
  struct call calls[3];
  bool has_waited;
  CHECK(gate_open(&gate, &one_at_once) == 0 && gate_start(&gate) == 0 && gate_client(&gate, "a", &none, true, &client) == 0);
  CHECK(enter_for(&gate, client, 0, &has_waited) == 0);
  for (int i = 0; i < 3; i++)
    queue_call(&calls[i], &gate, client, &guests[i], 0);
  guests[1].has_gone = true;
  CHECK(end_of(&calls[1]) == ECANCELED && client->cancelled == 1);
  await_queued(&gate, client, 2);
  CHECK(queue_size(&gate) == 2 && gate.queued == 2 && gate.given_up == 0);
  gate_leave(&gate);
  CHECK(end_of(&calls[0]) == 0 && guests[0].asked > 0);
  gate_leave(&gate);
  CHECK(end_of(&calls[2]) == 0);
  gate_leave(&gate);
  CHECK(client->requests == 4 && client->grants[DMC_PRIORITY] == 3 && client->waited.count == 3 && gate.under_way == 0);
  gate_close(&gate);
}

/* When the next request is due, once the gate has nothing to do before. */
static uint64_t next_due(struct gate *gate)
{
  uint64_t due = 0;
  while (due <= gate_now(gate)) {
    usleep(1000);
    pthread_mutex_lock(&gate->lock);
    due = gate->due;
    pthread_mutex_unlock(&gate->lock);
  }
  return due;
}

/* Has the gate look now: it asks those who wait, or if any have gone it cancels what they waited for. */
static void look_now(struct gate *gate)
{
  pthread_mutex_lock(&gate->lock);
  gate->next_look = 0;
  pthread_cond_signal(&gate->timer_wakes);
  pthread_mutex_unlock(&gate->lock);
}

static void await_given_up(struct gate *gate, uint32_t count)
{
  uint32_t given_up = 0;
  while (given_up != count) {
    usleep(1000);
    pthread_mutex_lock(&gate->lock);
    given_up = gate->given_up;
    pthread_mutex_unlock(&gate->lock);
  }
}

/* Requests that are given up are not charged: at a limit at which each takes a minute, the one behind seven of them is due after a minute
   and not after eight. They may be of one waiter or of several. */
static void given_back(bool is_one_waiter)
{
  enum { GONE = 7 };
  struct gate gate = {0};
  struct client *client;
  struct rates once = rates_of(0, 1, 1);
  struct gate_config config = one_at_once;
  struct guest guests[GONE + 1] = {{.gate = NULL}};
  struct call calls[GONE + 1];
  uint64_t minute = 60 * (uint64_t)1000000000;
  config.unit = 512;
  config.slice = 60 * minute; /* so that the gate looks when the test has it look */
  CHECK(gate_open(&gate, &config) == 0 && gate_start(&gate) == 0 && gate_client(&gate, "a", &once, true, &client) == 0);
  for (int i = 0; i < GONE; i++)
    queue_call(&calls[i], &gate, client, &guests[is_one_waiter ? 0 : i], 60 * 512);
  queue_call(&calls[GONE], &gate, client, &guests[GONE], 60 * 512);
  for (int i = 0; i < GONE; i++)
    guests[i].has_gone = true;
  look_now(&gate);
  await_given_up(&gate, GONE);
  look_now(&gate);
  await_queued(&gate, client, 1);
  uint64_t due = next_due(&gate);
  CHECK(minute - 1000000 < due && due < minute + minute / 2);
  for (int i = 0; i < GONE; i++)
    CHECK(end_of(&calls[i]) == ECANCELED);
  CHECK(client->cancelled == GONE && client->requests == GONE + 1 && queue_size(&gate) == 1);
  gate_stop(&gate, ESHUTDOWN);
  CHECK(end_of(&calls[GONE]) == ESHUTDOWN);
  gate_close(&gate);
}

static void leave_when_asked(struct guest *guest)
{
  gate_leave(guest->gate);
  guest->has_gone = true;
}

static void stop_when_asked(struct guest *guest)
{
  gate_stop(guest->gate, ESHUTDOWN);
  guest->has_gone = true;
}

/* A request that is granted, or the gate that is stopped, between the question and the cancel. The place at the device is given back. */
static void overtaken(void (*when_asked)(struct guest *), int fault, uint64_t grants)
{
  struct gate gate = {0};
  struct client *client;
  struct rates none = rates_of(0, 1, 0);
  struct guest guest = {.when_asked = when_asked};
  struct call call;
  bool has_waited;
  CHECK(gate_open(&gate, &one_at_once) == 0 && gate_start(&gate) == 0 && gate_client(&gate, "a", &none, true, &client) == 0);
  CHECK(enter_for(&gate, client, 0, &has_waited) == 0);
  begin_call(&call, &gate, client, &guest, 0); /* which waits until it is asked, and may be granted before a look finds it queued */
  CHECK(end_of(&call) == fault);
  CHECK(client->grants[DMC_PRIORITY] == grants && client->cancelled == 0 && client->requests == 2);
  CHECK(gate.under_way == (grants == 2 ? 0 : 1));
  gate_close(&gate);
}

static bool is_changing(struct gate *gate, const struct client *client)
{
  pthread_mutex_lock(&gate->lock);
  bool is_changing = client->is_changing;
  pthread_mutex_unlock(&gate->lock);
  return is_changing;
}

/* A client gets its new rates once its queued requests are given up, and who waits for that may go too. */
static void changed_when_given_up(void)
{
  struct gate gate = {0};
  struct client *client, *other;
  struct rates none = rates_of(0, 1, 0), more = rates_of(1000, 2, 0);
  struct guest guests[3] = {{.gate = NULL}};
  struct call first, second, third;
  bool has_waited;
  CHECK(gate_open(&gate, &one_at_once) == 0 && gate_start(&gate) == 0);
  CHECK(gate_client(&gate, "a", &none, true, &client) == 0 && gate_client(&gate, "b", &none, false, &other) == 0);
  CHECK(enter_for(&gate, other, 0, &has_waited) == 0);
  queue_call(&first, &gate, client, &guests[0], 0);
  CHECK(gate_change(&gate, "a", &more, true) == 0 && client->is_changing);
  begin_call(&second, &gate, client, &guests[1], 0);
  begin_call(&third, &gate, client, &guests[2], 0);
  guests[1].has_gone = true;
  CHECK(end_of(&second) == ECANCELED && queued(&gate, client) == 1 && client->requests == 1 && client->cancelled == 0);
  guests[0].has_gone = true;
  CHECK(end_of(&first) == ECANCELED && client->cancelled == 1);
  while (is_changing(&gate, client))
    usleep(1000);
  await_queued(&gate, client, 1);
  CHECK(client->rates.reservation == more.reservation && client->requests == 2);
  gate_leave(&gate);
  CHECK(end_of(&third) == 0 && client->grants[DMC_RESERVATION] + client->grants[DMC_PRIORITY] == 1);
  gate_leave(&gate);
  gate_close(&gate);
}

/* If the queue does not have a request that waits, nothing is granted any more, and the reason is known. */
static void lost_in_queue(void)
{
  struct gate gate = {0};
  struct client *client;
  struct rates none = rates_of(0, 1, 0);
  struct guest guests[2] = {{.gate = NULL}};
  struct call calls[2];
  uint32_t removed = 0;
  bool has_waited;
  CHECK(gate_open(&gate, &one_at_once) == 0 && gate_start(&gate) == 0 && gate_client(&gate, "a", &none, true, &client) == 0);
  CHECK(enter_for(&gate, client, 0, &has_waited) == 0);
  for (int i = 0; i < 2; i++)
    queue_call(&calls[i], &gate, client, &guests[i], 0);
  pthread_mutex_lock(&gate.lock);
  CHECK(dmc_queue_remove(&gate.queue, client->id, &removed) == DMC_OK && removed == 2);
  pthread_mutex_unlock(&gate.lock);
  guests[0].has_gone = true;
  CHECK(end_of(&calls[0]) == ECANCELED && end_of(&calls[1]) == EIO && gate.reason && client->cancelled == 1);
  gate_close(&gate);
}

/* Whoever waits for a request of `restless` goes after it was asked this often. */
struct restless {
  struct waiter waiter;
  struct rounds rounds;
  unsigned asks_left, given_up;
};

static bool is_patient(struct waiter *waiter)
{
  struct restless *restless = (struct restless *)waiter;
  return restless->asks_left && restless->asks_left--;
}

static void *come_and_go(void *argument)
{
  struct restless *restless = argument;
  struct rounds *rounds = &restless->rounds;
  for (unsigned i = 0; i < ROUNDS / 4; i++) {
    restless->waiter = (struct waiter){.is_wanted = is_patient};
    restless->asks_left = i % 4;
    int fault = gate_enter(rounds->gate, rounds->client, 0, &restless->waiter);
    CHECK(fault == 0 || fault == ECANCELED);
    if (fault) {
      restless->given_up++;
      continue;
    }
    rounds->served++;
    usleep(50);
    gate_leave(rounds->gate);
  }
  return NULL;
}

/* Many threads whose requests are given up while others are granted: each is granted or cancelled once, and no place is lost. */
static void restless(void)
{
  struct gate gate = {0};
  struct gate_config config = one_at_once;
  struct client *client;
  struct rates none = rates_of(0, 1, 0);
  struct restless restless[16];
  pthread_t threads[16];
  unsigned served = 0, given_up = 0;
  config.slice = 20000;
  CHECK(gate_open(&gate, &config) == 0 && gate_start(&gate) == 0 && gate_client(&gate, "a", &none, true, &client) == 0);
  for (int i = 0; i < 16; i++) {
    restless[i] = (struct restless){.rounds = {.gate = &gate, .client = client}};
    pthread_create(&threads[i], NULL, come_and_go, &restless[i]);
  }
  for (int i = 0; i < 16; i++) {
    pthread_join(threads[i], NULL);
    served += restless[i].rounds.served;
    given_up += restless[i].given_up;
  }
  await_queued(&gate, client, 0);
  uint64_t grants = client->grants[DMC_PRIORITY];
  CHECK(served + given_up == 16 * ROUNDS / 4 && client->requests == grants + client->cancelled);
  CHECK(served <= grants && client->cancelled <= given_up && client->cancelled > 0 && served > 0);
  CHECK(gate.queued == 0 && gate.given_up == 0 && gate.under_way == 0 && queue_size(&gate) == 0);
  gate_close(&gate);
}

/* ---- names, shares and memory */

/* A client of the default that nobody uses and that had no request is forgotten at once. */
static void unused_names(void)
{
  struct gate gate = {0};
  struct client *client, *another;
  struct rates none = rates_of(0, 1, 0);
  struct gate_config config = one_at_once;
  config.most_others = 1;
  bool has_waited;
  CHECK(gate_open(&gate, &config) == 0);
  CHECK(gate_client(&gate, "a", &none, false, &client) == 0);
  CHECK(gate_client(&gate, "b", &none, false, &another) == EBUSY);
  gate_release(&gate, client);
  CHECK(gate_client(&gate, "b", &none, false, &another) == 0 && gate.others == 1);
  CHECK(enter_for(&gate, another, 0, &has_waited) == 0);
  gate_leave(&gate);
  gate_release(&gate, another);
  CHECK(gate_client(&gate, "a", &none, false, &client) == EBUSY && gate.others == 1);
  gate_close(&gate);
}

/* ---- shares: two clients of weight 1 before a device with four slots, each for a millisecond */

#define MOST_THREADS 16

/* A client, whose threads use the device until they are told to rest. */
struct user {
  struct gate *gate;
  struct client *client;
  atomic_bool is_resting;
  unsigned threads;
  pthread_t ids[MOST_THREADS];
};

struct pair {
  struct gate gate;
  struct user first, second;
};

static void *use_device(void *argument)
{
  struct user *user = argument;
  bool has_waited;
  while (!user->is_resting && enter_for(user->gate, user->client, 0, &has_waited) == 0) {
    usleep(1000);
    gate_leave(user->gate);
  }
  return NULL;
}

static void begin(struct user *user, unsigned threads)
{
  user->is_resting = false;
  user->threads = threads;
  for (unsigned i = 0; i < threads; i++)
    pthread_create(&user->ids[i], NULL, use_device, user);
}

static void rest(struct user *user)
{
  user->is_resting = true;
  for (unsigned i = 0; i < user->threads; i++)
    pthread_join(user->ids[i], NULL);
}

static void open_pair(struct pair *pair, enum dmc_shares shares)
{
  struct gate_config config = one_at_once;
  struct rates none = rates_of(0, 1, 0);
  config.depth = 4;
  config.shares = shares;
  memset(pair, 0, sizeof *pair);
  pair->first.gate = pair->second.gate = &pair->gate;
  CHECK(gate_open(&pair->gate, &config) == 0 && gate_start(&pair->gate) == 0);
  CHECK(gate_client(&pair->gate, "first", &none, true, &pair->first.client) == 0);
  CHECK(gate_client(&pair->gate, "second", &none, true, &pair->second.client) == 0);
}

static void close_pair(struct pair *pair)
{
  gate_stop(&pair->gate, ESHUTDOWN);
  rest(&pair->first);
  rest(&pair->second);
  gate_close(&pair->gate);
}

static uint64_t grants_of(const struct user *user)
{
  pthread_mutex_lock(&user->gate->lock);
  uint64_t grants = user->client->grants[DMC_PRIORITY];
  pthread_mutex_unlock(&user->gate->lock);
  return grants;
}

/* Waits until a user has had so many further grants. */
static void await_grants(const struct user *user, uint64_t count)
{
  uint64_t before = grants_of(user);
  while (grants_of(user) < before + count)
    usleep(1000);
}

/* How much of the next 400 grants goes to the first, in hundredths. */
static uint64_t part_of_first(const struct pair *pair)
{
  uint64_t before_first = grants_of(&pair->first), before_second = grants_of(&pair->second), first = 0, second = 0;
  while (first + second < 400) {
    usleep(1000);
    first = grants_of(&pair->first) - before_first;
    second = grants_of(&pair->second) - before_second;
  }
  return 100 * first / (first + second);
}

/* The first is alone for 1000 grants at the device's depth, and the second comes. */
static uint64_t newcomer(enum dmc_shares shares)
{
  static struct pair pair;
  open_pair(&pair, shares);
  begin(&pair.first, 4);
  await_grants(&pair.first, 1000);
  begin(&pair.second, MOST_THREADS);
  await_grants(&pair.second, 1);
  uint64_t part = part_of_first(&pair);
  close_pair(&pair);
  return part;
}

/* Both are busy, and the second pauses for 1000 grants, after which it is not idle. */
static uint64_t pause_of_second(enum dmc_shares shares)
{
  static struct pair pair;
  open_pair(&pair, shares);
  begin(&pair.first, MOST_THREADS);
  begin(&pair.second, MOST_THREADS);
  await_grants(&pair.second, 100);
  rest(&pair.second);
  await_grants(&pair.first, 1000);
  begin(&pair.second, MOST_THREADS);
  await_grants(&pair.second, 1);
  uint64_t part = part_of_first(&pair);
  close_pair(&pair);
  return part;
}

/* In virtual time who was alone has half as soon as another comes, or comes back. By the clock it has nothing for as long as it was
   alone. */
static void shares(void)
{
  uint64_t half = newcomer(DMC_VIRTUAL), nothing = newcomer(DMC_CLOCK);
  CHECK(30 <= half && half <= 70 && nothing <= 10);
  half = pause_of_second(DMC_VIRTUAL);
  nothing = pause_of_second(DMC_CLOCK);
  CHECK(30 <= half && half <= 70 && nothing <= 10);
}

/* ---- memory */

/* Whichever allocation is refused, the result is ENOMEM, and the same call then succeeds. */
static void refused_allocations(void)
{
  unsigned long needed = 0;
  bool is_done = false;
  while (!is_done) {
    struct gate gate = {0};
    struct client *client = NULL;
    struct rates none = rates_of(0, 1, 0);
    bool has_waited;
    CHECK(gate_open(&gate, &one_at_once) == 0);
    granted = needed++;
    int fault = gate_client(&gate, "a", &none, false, &client);
    if (!fault)
      fault = enter_for(&gate, client, 0, &has_waited);
    is_done = granted != -1ul;
    granted = -1ul;
    CHECK(fault == (is_done ? 0 : ENOMEM));
    if (!client)
      CHECK(gate_client(&gate, "a", &none, false, &client) == 0);
    if (fault)
      CHECK(enter_for(&gate, client, 0, &has_waited) == 0);
    CHECK(client->queued == 0 && client->requests == 1);
    gate_leave(&gate);
    gate_close(&gate);
  }
  printf("%lu allocations refused in turn\n", needed - 1);
}

int main(void)
{
  rates();
  percentiles();
  waiting();
  awaited_stop();
  failed();
  queue_faults();
  due_later();
  sizes();
  limit_by_cost();
  over_limit();
  most_clients();
  forgotten();
  kept_place();
  crowded();
  changed();
  kept_and_not();
  resized();
  given_up();
  given_back(true);
  given_back(false);
  overtaken(leave_when_asked, ECANCELED, 2);
  overtaken(stop_when_asked, ESHUTDOWN, 1);
  changed_when_given_up();
  lost_in_queue();
  restless();
  unused_names();
  shares();
  refused_allocations();
  printf("%d failures\n", failures);
  return failures != 0;
}
