/* Tests of what knows nothing of nginx: zones, tenants, stamps and the status. They are linked with -Wl,--wrap for malloc, calloc,
   realloc and strdup, so that an allocation can be refused. */
#define _GNU_SOURCE
#include <stdio.h>
#include <stdlib.h>
#include <string.h>

#include "clock.h"
#include "stamp.h"
#include "status.h"
#include "tenants.h"
#include "zone.h"

static int failures;

#define CHECK(holds)                                                                \
  do {                                                                              \
    if (!(holds)) {                                                                 \
      printf("%s:%d: %s does not hold\n", __FILE__, __LINE__, #holds);              \
      failures++;                                                                   \
    }                                                                               \
  } while (0)

/* ---- allocations */

/* How many allocations succeed before one is refused. */
static unsigned long granted = -1ul;

static bool is_refused(void)
{
  return granted != -1ul && granted-- == 0;
}

void *__real_malloc(size_t size);
void *__real_calloc(size_t count, size_t size);
void *__real_realloc(void *at, size_t size);
char *__real_strdup(const char *text);

void *__wrap_malloc(size_t size)
{
  return is_refused() ? NULL : __real_malloc(size);
}

void *__wrap_calloc(size_t count, size_t size)
{
  return is_refused() ? NULL : __real_calloc(count, size);
}

void *__wrap_realloc(void *at, size_t size)
{
  return is_refused() ? NULL : __real_realloc(at, size);
}

char *__wrap_strdup(const char *text)
{
  return is_refused() ? NULL : __real_strdup(text);
}

/* ---- stamps */

static bool reads(const char *text, uint32_t wanted)
{
  uint32_t count = 77;
  return stamp_read_count(text, strlen(text), &count) && count == wanted;
}

static bool is_malformed(const char *text)
{
  uint32_t count = 77;
  return !stamp_read_count(text, strlen(text), &count) && count == 77;
}

static void counts(void)
{
  CHECK(reads("0", 0) && reads("7", 7) && reads("4294967295", UINT32_MAX) && reads("0000000012", 12));
  CHECK(is_malformed("") && is_malformed("-1") && is_malformed("+1") && is_malformed(" 1") && is_malformed("1 ") && is_malformed("0x1"));
  CHECK(is_malformed("4294967296") && is_malformed("99999999999999999999") && is_malformed("00000000012") && is_malformed("1,1"));
}

static void written_costs(void)
{
  char text[ABANDONED_SIZE];
  uint32_t costs[2] = {7, UINT32_MAX}, read[2] = {1, 1};
  stamp_write_abandoned(text, costs);
  CHECK(strcmp(text, "7 4294967295") == 0 && stamp_read_abandoned(text, strlen(text), read) && read[0] == 7 && read[1] == UINT32_MAX);
  static const char *const malformed[] = {"", "7", "7 ", " 7", "7 8 9", "7,8", "-7 8", "4294967296 1"};
  for (size_t i = 0; i < sizeof malformed / sizeof *malformed; i++)
    CHECK(!stamp_read_abandoned(malformed[i], strlen(malformed[i]), read));
}

static bool is_outcome(const char *word, enum outcome outcome)
{
  return outcome_of(word, strlen(word)) == outcome;
}

static void outcomes(void)
{
  CHECK(outcome_of(NULL, 0) == OUTCOME_RETURNED);
  CHECK(is_outcome("none", OUTCOME_RETURNED) && is_outcome("reservation", OUTCOME_RESERVATION) && is_outcome("priority", OUTCOME_PRIORITY));
  CHECK(is_outcome("expired", OUTCOME_EXPIRED) && is_outcome("", OUTCOME_EXPIRED) && is_outcome("reservations", OUTCOME_EXPIRED));
  CHECK(strcmp(outcome_word(OUTCOME_RETURNED), "none") == 0 && strcmp(outcome_word(OUTCOME_EXPIRED), "expired") == 0);
}

/* ---- zones */

static const struct zone_config one_at_once = {
  .name = "z", .depth = 1, .most_queued = 100000, .most_of_client = 100000, .most_others = 10, .at_limit = DMC_WAIT, .shares = DMC_VIRTUAL,
  .timeout = NEVER, .idle = 60 * (uint64_t)SECOND, .erase = 60 * (uint64_t)SECOND};

static const struct dmc_stamp one = {1, 1, 1};

static struct zone *opened(const struct zone_config *config)
{
  static struct zone zone;
  memset(&zone, 0, sizeof zone);
  CHECK(zone_open(&zone, config));
  return &zone;
}

static struct client *client(struct zone *zone, const char *name, uint32_t reservation, uint32_t weight, uint32_t limit)
{
  struct rates asked = {reservation, weight, limit}, found;
  CHECK(rates_round(&asked, &found));
  struct client *made = zone_client(zone, name, &found, true, 0);
  CHECK(made && zone_find(zone, name) == made);
  return made;
}

/* Enters a request that counts its own cost, and says whether it is granted at once. */
static bool is_granted(struct zone *zone, struct request *request, struct client *client, uint64_t now)
{
  struct request *woken;
  *request = (struct request){.counting = DMC_OTHERS};
  CHECK(zone_enter(zone, request, client, one, now, &woken) == REFUSED_NOT);
  CHECK((woken == request) == (request->state == REQUEST_GRANTED));
  return woken == request;
}

/* Why a request is refused. */
static enum refusal refusal(struct zone *zone, struct client *client, uint64_t now)
{
  struct request request = {0}, *woken;
  enum refusal refusal = zone_enter(zone, &request, client, one, now, &woken);
  CHECK(woken == NULL && request.state == REQUEST_NEW);
  return refusal;
}

/* Each request leaves the device for the next, in the order in which they came. */
static void in_turn(void)
{
  struct zone *zone = opened(&one_at_once);
  struct client *gold = client(zone, "gold", 0, 1, 0);
  struct request requests[3];
  CHECK(zone_find(zone, "silver") == NULL);
  CHECK(is_granted(zone, &requests[0], gold, 1) && !is_granted(zone, &requests[1], gold, 2) && !is_granted(zone, &requests[2], gold, 3));
  CHECK(zone->waiting == 2 && zone->queued == 2 && zone->under_way == 1 && gold->queued == 2 && gold->under_way == 1);
  CHECK(zone_leave(zone, &requests[0], 4) == &requests[1] && requests[1].state == REQUEST_GRANTED && requests[1].next == NULL);
  CHECK(zone_leave(zone, &requests[0], 4) == NULL && zone->under_way == 1);
  CHECK(zone_leave(zone, &requests[1], 5) == &requests[2] && zone_leave(zone, &requests[2], 6) == NULL);
  CHECK(gold->grants[DMC_PRIORITY] == 3 && gold->requests == 3 && zone->waiting == 0 && zone->queued == 0 && zone->under_way == 0);
  CHECK(gold->waited[DMC_PRIORITY].sum == 0 + 2 + 2);
  zone_close(zone);
}

/* A request that has left is cancelled before the next one is granted. */
static void cancelled(void)
{
  struct zone *zone = opened(&one_at_once);
  struct client *gold = client(zone, "gold", 0, 1, 0);
  struct request requests[5];
  for (int i = 0; i < 5; i++)
    is_granted(zone, &requests[i], gold, 1);
  CHECK(zone_leave(zone, &requests[1], 2) == NULL && zone_leave(zone, &requests[4], 2) == NULL && zone_leave(zone, &requests[2], 2) == NULL);
  CHECK(gold->left == 3 && zone->waiting == 1 && zone->queued == 4 && gold->queued == 4 && gold->given_up == 3);
  CHECK(zone_leave(zone, &requests[0], 3) == &requests[3] && requests[3].state == REQUEST_GRANTED && gold->grants[DMC_PRIORITY] == 2);
  CHECK(zone->queued == 0 && gold->queued == 0 && gold->given_up == 0 && !zone->giving_up && zone->under_way == 1);
  zone_leave(zone, &requests[3], 4);
  zone_close(zone);
}

/* What is given up is not charged: at a limit of 10 a second the request behind 20 that leave at once is due as if it had come alone. If
   their tracker does not count them in their stamps, they were not charged, and nothing is given back. */
static void given_back(enum dmc_counting counting)
{
  struct zone *zone = opened(&one_at_once);
  struct client *batch = client(zone, "batch", 0, 1, 10);
  struct request first, left[20], last, *woken;
  uint64_t due = SECOND + SECOND / 10, late = SECOND + 21 * (SECOND / 10);
  CHECK(is_granted(zone, &first, batch, SECOND) && zone_leave(zone, &first, SECOND) == NULL);
  for (int i = 0; i < 20; i++) {
    left[i] = (struct request){.counting = counting};
    CHECK(zone_enter(zone, &left[i], batch, one, SECOND, &woken) == REFUSED_NOT && !woken);
  }
  is_granted(zone, &last, batch, SECOND);
  for (int i = 0; i < 20; i++) /* the order in which they leave is not that in which they are cancelled */
    zone_leave(zone, &left[i], SECOND + 1);
  CHECK(zone->queued == 21 && zone_next_turn(zone) == due);
  struct request *granted = zone_turn(zone, due);
  CHECK(zone->queued == (granted ? 0 : 1) && (granted == &last) == (counting == DMC_OTHERS));
  if (!granted)
    CHECK(zone_next_turn(zone) == late && zone_turn(zone, late) == &last);
  zone_leave(zone, &last, late);
  zone_close(zone);
}

/* Enters a request of a cost, which is not granted at once. */
static void waits(struct zone *zone, struct request *request, struct client *client, uint32_t cost, uint64_t now)
{
  struct request *woken;
  *request = (struct request){.counting = DMC_OTHERS};
  CHECK(zone_enter(zone, request, client, (struct dmc_stamp){cost, cost, cost}, now, &woken) == REFUSED_NOT && !woken);
}

/* At a limit of 10 a second a request of cost 100 is due after 10 seconds. Once it is given up, a cheaper one behind it is due as if that
   one had not come: whether it came before that or after it, and also if another one was before both. */
static void costly_given_up(void)
{
  struct zone *zone = opened(&one_at_once);
  struct client *batch = client(zone, "batch", 0, 1, 10);
  struct request first, before, costly, cheap;
  uint64_t tenth = SECOND / 10, start = SECOND;
  CHECK(is_granted(zone, &first, batch, start) && zone_leave(zone, &first, start) == NULL);
  waits(zone, &costly, batch, 100, start);
  waits(zone, &cheap, batch, 1, start);
  CHECK(zone_next_turn(zone) == start + 100 * tenth && zone_leave(zone, &costly, start + 1) == NULL);
  CHECK(zone_next_turn(zone) <= start + 1 && zone_turn(zone, start + 1) == NULL && zone_next_turn(zone) == start + tenth);
  CHECK(zone_turn(zone, start + tenth) == &cheap && zone_leave(zone, &cheap, start + tenth) == NULL);

  waits(zone, &costly, batch, 100, start + tenth);
  CHECK(zone_leave(zone, &costly, start + tenth) == NULL);
  waits(zone, &cheap, batch, 1, start + tenth);
  CHECK(zone_next_turn(zone) == start + 2 * tenth && zone_turn(zone, start + 2 * tenth) == &cheap);
  zone_leave(zone, &cheap, start + 2 * tenth);

  waits(zone, &before, batch, 1, start + 2 * tenth);
  waits(zone, &costly, batch, 100, start + 2 * tenth);
  waits(zone, &cheap, batch, 1, start + 2 * tenth);
  zone_leave(zone, &costly, start + 2 * tenth);
  CHECK(zone->queued == 3 && zone_turn(zone, start + 3 * tenth) == &before && zone_leave(zone, &before, start + 3 * tenth) == NULL);
  CHECK(zone->queued == 1 && zone_next_turn(zone) == start + 4 * tenth && zone_turn(zone, start + 4 * tenth) == &cheap);
  zone_leave(zone, &cheap, start + 4 * tenth);
  zone_close(zone);
}

/* So many that they are not cancelled at once. */
enum { MANY = 2500 };

/* Many that have left are cancelled over several turns, and are passed on if they are granted before. */
static void many_given_up(void)
{
  struct zone *zone = opened(&one_at_once);
  struct client *gold = client(zone, "gold", 0, 1, 0);
  static struct request first, left[MANY], last;
  is_granted(zone, &first, gold, 1);
  for (int i = 0; i < MANY; i++)
    is_granted(zone, &left[i], gold, 1);
  is_granted(zone, &last, gold, 1);
  for (int i = 0; i < MANY; i++)
    zone_leave(zone, &left[i], 2);
  CHECK(zone_turn(zone, 2) == NULL && MANY / 2 < zone->queued && zone->queued < MANY + 1);
  uint64_t next = zone_next_turn(zone);
  uint32_t queued = zone->queued;
  CHECK(2 < next && next <= 2 + SECOND / 100);
  CHECK(zone_leave(zone, &first, 3) == NULL && zone->queued == queued - 1000 && zone_next_turn(zone) == 3);
  struct request *granted = NULL;
  for (uint64_t now = 4; now < 100 && !granted; now++)
    granted = zone_turn(zone, now);
  CHECK(granted == &last && zone->queued == 0 && gold->given_up == 0 && gold->left == MANY && gold->grants[DMC_PRIORITY] == 2);
  zone_leave(zone, &last, 100);
  zone_close(zone);
}

/* The same without room at the device: all are cancelled in the end. */
static void many_cancelled(void)
{
  struct zone *zone = opened(&one_at_once);
  struct client *gold = client(zone, "gold", 0, 1, 0);
  static struct request first, left[MANY];
  uint64_t now = 2;
  is_granted(zone, &first, gold, 1);
  for (int i = 0; i < MANY; i++)
    is_granted(zone, &left[i], gold, 1);
  for (int i = 0; i < MANY; i++)
    zone_leave(zone, &left[i], now);
  for (; zone->queued && now < 10 * (uint64_t)SECOND; now = zone_next_turn(zone))
    zone_turn(zone, now);
  CHECK(zone->queued == 0 && gold->queued == 0 && gold->given_up == 0 && !zone->giving_up);
  zone_leave(zone, &first, now);
  zone_close(zone);
}

/* Enters a request that its client gives up at once. Says why it is refused, if it is. */
static enum refusal come_and_go(struct zone *zone, struct request *request, struct client *client, uint64_t now)
{
  struct request *woken;
  *request = (struct request){.counting = DMC_OTHERS};
  enum refusal refusal = zone_enter(zone, request, client, one, now, &woken);
  CHECK(!woken && (refusal || zone_leave(zone, request, now) == NULL));
  return refusal;
}

/* Takes turns until nothing is queued. Returns the time. */
static uint64_t drain(struct zone *zone, uint64_t now)
{
  for (; zone->queued && now < 1000 * (uint64_t)SECOND; now = zone_next_turn(zone))
    CHECK(zone_turn(zone, now) == NULL);
  CHECK(zone->queued == 0 && zone->waiting == 0);
  return now;
}

/* Who lets requests come and go faster than they are cancelled has no more of them in the queue than twice its part, and keeps nobody
   else out. */
static void come_and_gone(void)
{
  struct zone_config config = one_at_once;
  config.most_of_client = MANY;
  struct zone *zone = opened(&config);
  struct client *gold = client(zone, "gold", 0, 1, 0), *silver = client(zone, "silver", 0, 1, 0);
  static struct request first, request, left[MANY];
  is_granted(zone, &first, gold, 1);
  for (int i = 0; i < MANY; i++)
    is_granted(zone, &left[i], gold, 1);
  CHECK(refusal(zone, gold, 1) == REFUSED_CLIENT_FULL);
  for (int i = 0; i < MANY; i++)
    zone_leave(zone, &left[i], 2);
  uint32_t came = 0;
  while (came < 2 * MANY && come_and_go(zone, &request, gold, 2) == REFUSED_NOT)
    came++;
  CHECK(MANY <= came && came < MANY + MANY / 10 && gold->queued == 2 * MANY + 64 && gold->given_up == gold->queued && zone->waiting == 0);
  CHECK(refusal(zone, gold, 2) == REFUSED_CLIENT_FULL && come_and_go(zone, &request, silver, 2) == REFUSED_NOT);
  uint64_t end = drain(zone, 2);
  CHECK(come_and_go(zone, &request, gold, end) == REFUSED_NOT && silver->refused == 0);
  zone_leave(zone, &first, end);
  drain(zone, end);
  zone_close(zone);
}

/* The same of all clients together. */
static void all_come_and_gone(void)
{
  struct zone_config config = one_at_once;
  config.most_queued = MANY;
  struct zone *zone = opened(&config);
  struct client *gold = client(zone, "gold", 0, 1, 0), *silver = client(zone, "silver", 0, 1, 0);
  static struct request first, request, left[MANY];
  is_granted(zone, &first, gold, 1);
  for (int i = 0; i < MANY; i++)
    is_granted(zone, &left[i], gold, 1);
  CHECK(refusal(zone, silver, 1) == REFUSED_FULL);
  for (int i = 0; i < MANY; i++)
    zone_leave(zone, &left[i], 2);
  for (uint32_t came = 0; zone->queued < 2 * MANY + 64 && came < 2 * MANY; came++)
    CHECK(come_and_go(zone, &request, silver, 2) == REFUSED_NOT);
  CHECK(zone->queued == 2 * MANY + 64 && refusal(zone, silver, 2) == REFUSED_FULL && refusal(zone, gold, 2) == REFUSED_FULL);
  zone_leave(zone, &first, drain(zone, 2));
  zone_close(zone);
}

/* Clients whose requests are cancelled over several turns take turns themselves: who has many keeps no other one's in the queue. */
static void cancelled_in_turn(void)
{
  struct zone *zone = opened(&one_at_once);
  struct client *gold = client(zone, "gold", 0, 1, 0), *silver = client(zone, "silver", 0, 1, 0);
  static struct request first, left[2 * MANY];
  is_granted(zone, &first, gold, 1);
  for (int i = 0; i < 2 * MANY; i++)
    is_granted(zone, &left[i], i % 2 ? gold : silver, 1);
  for (int i = 0; i < 2 * MANY; i++)
    zone_leave(zone, &left[i], 2);
  CHECK(zone_turn(zone, 2) == NULL && (gold->queued == MANY) != (silver->queued == MANY));
  CHECK(zone_turn(zone, zone_next_turn(zone)) == NULL && gold->queued < MANY && silver->queued < MANY);
  uint64_t end = drain(zone, zone_next_turn(zone));
  CHECK(!zone->giving_up && !gold->is_giving_up && !silver->is_giving_up && gold->left + silver->left == 2 * MANY);
  zone_leave(zone, &first, end);
  zone_close(zone);
}

/* A client that is not kept stays while a request of it is to be cancelled. */
static void cancelled_and_forgotten(void)
{
  struct zone_config config = one_at_once;
  config.idle = config.erase = SECOND;
  struct zone *zone = opened(&config);
  struct client *gold = client(zone, "gold", 0, 1, 0);
  struct rates rates = {0, 1, 0};
  struct client *a = zone_client(zone, "a", &rates, false, 0);
  struct request first, request;
  uint64_t late = 10 * (uint64_t)SECOND;
  is_granted(zone, &first, gold, 0);
  CHECK(come_and_go(zone, &request, a, 1) == REFUSED_NOT);
  CHECK(zone_turn(zone, late) == NULL && zone_find(zone, "a") == a && a->given_up == 1);
  CHECK(zone_leave(zone, &first, late) == NULL && zone->queued == 0 && zone_find(zone, "a") == a);
  CHECK(zone_turn(zone, late + SECOND) == NULL && zone_find(zone, "a") == NULL && zone_find(zone, "gold") == gold);
  zone_close(zone);
}

/* If the queue does not have a request that is queued, nothing is granted any more, and all waits end. */
static void lost_in_queue(void)
{
  struct zone *zone = opened(&one_at_once);
  struct client *gold = client(zone, "gold", 0, 1, 0);
  struct request requests[3];
  uint32_t removed = 0;
  for (int i = 0; i < 3; i++)
    is_granted(zone, &requests[i], gold, 1);
  CHECK(dmc_queue_remove(&zone->queue, gold->id, &removed) == DMC_OK && removed == 2);
  zone_leave(zone, &requests[1], 2);
  CHECK(!zone->fault && zone_leave(zone, &requests[0], 2) == NULL && zone->fault && zone_next_turn(zone) == 0);
  CHECK(zone_turn(zone, 3) == &requests[2] && requests[2].state == REQUEST_EXPIRED && refusal(zone, gold, 4) == REFUSED_FAULT);
  zone_close(zone);
}

/* A request that would wait for its limit longer than the threshold is refused, and costs its client nothing. */
static void rejected(void)
{
  struct zone_config config = one_at_once;
  config.at_limit = DMC_REJECT;
  config.threshold = SECOND / 20;
  struct zone *zone = opened(&config);
  struct client *batch = client(zone, "batch", 0, 1, 10);
  struct request first, second = {0}, *woken;
  uint64_t start = SECOND, early = start + SECOND / 25, soon = start + SECOND / 16, due = start + SECOND / 10;
  CHECK(is_granted(zone, &first, batch, start) && zone_leave(zone, &first, start + 1) == NULL);
  CHECK(zone_enter(zone, &second, batch, one, early, &woken) == REFUSED_LIMIT && woken == NULL && second.state == REQUEST_NEW);
  CHECK(batch->refused == 1 && zone->queued == 0 && strcmp(refusal_text(REFUSED_LIMIT), "the client is over its limit") == 0);
  CHECK(zone_limit_after(zone, batch, one, early) == start + SECOND / 20 - early && zone_retry_after(zone, early) == 0);
  CHECK(!is_granted(zone, &second, batch, soon) && zone_next_turn(zone) == due && zone_turn(zone, due) == &second);
  zone_leave(zone, &second, due + 1);
  zone_close(zone);
}

/* When a request that is over its client's limit may come again: by that client's tags and its own stamp, whatever others wait for. */
static void limited_again(void)
{
  struct zone_config config = one_at_once;
  config.at_limit = DMC_REJECT;
  struct zone *zone = opened(&config);
  struct client *batch = client(zone, "batch", 0, 1, 10), *gold = client(zone, "gold", 0, 1, 0);
  struct request request, *woken;
  uint64_t start = SECOND, tenth = SECOND / 10;
  CHECK(zone_limit_after(zone, batch, one, start) == 0 && zone_limit_after(zone, gold, one, start) == 0);
  CHECK(is_granted(zone, &request, batch, start) && refusal(zone, batch, start + 1) == REFUSED_LIMIT);
  CHECK(zone_limit_after(zone, batch, one, start + 1) == tenth - 1 && zone_limit_after(zone, batch, one, start + tenth) == 0);
  CHECK(zone_limit_after(zone, batch, (struct dmc_stamp){5, 0, 1}, start + 1) == 5 * tenth - 1);
  CHECK(zone_limit_after(zone, batch, (struct dmc_stamp){UINT32_MAX, 0, 1}, start) == UINT32_MAX * tenth);
  zone_leave(zone, &request, start + 2);
  request = (struct request){.counting = DMC_OTHERS};
  CHECK(zone_enter(zone, &request, batch, one, start + tenth, &woken) == REFUSED_NOT && woken == &request);
  CHECK(zone_limit_after(zone, batch, one, start + tenth) == tenth);
  zone_leave(zone, &request, start + tenth);
  zone->config.threshold = 100 * (uint64_t)SECOND;
  CHECK(zone_limit_after(zone, batch, one, start + tenth) == 0);
  batch->limit_tag = NEVER;
  CHECK(zone_limit_after(zone, batch, one, start + tenth) == 0);
  zone_close(zone);
}

/* What a request waits for is said: a limit, and how long until the queue may have room. */
static void limited(void)
{
  struct zone *zone = opened(&one_at_once);
  struct client *batch = client(zone, "batch", 0, 1, 10);
  struct request first, second, third;
  uint64_t start = SECOND, due = SECOND + SECOND / 10, next = SECOND + SECOND / 5;
  CHECK(is_granted(zone, &first, batch, start) && !is_granted(zone, &second, batch, start + 1) && zone_retry_after(zone, start + 1) == 0);
  CHECK(zone_leave(zone, &first, start + 2) == NULL && zone_next_turn(zone) == due && zone_retry_after(zone, start + 2) == due - start - 2);
  CHECK(zone_turn(zone, due - 1) == NULL && zone_turn(zone, due) == &second);
  CHECK(!is_granted(zone, &third, batch, due) && zone_leave(zone, &second, due) == NULL && zone_next_turn(zone) == next);
  CHECK(zone_leave(zone, &third, due + 1) == NULL && zone->queued == 1 && zone_next_turn(zone) == next);
  CHECK(zone_turn(zone, next) == NULL && zone->queued == 0);
  zone_close(zone);
}

/* A reservation is met first, and its grants are counted as such. */
static void reserved(void)
{
  struct zone *zone = opened(&one_at_once);
  struct client *gold = client(zone, "gold", 1000, 1, 0), *silver = client(zone, "silver", 0, 100, 0);
  struct request first, other, reserved;
  is_granted(zone, &first, silver, SECOND);
  is_granted(zone, &other, silver, SECOND);
  is_granted(zone, &reserved, gold, SECOND);
  CHECK(zone_leave(zone, &first, SECOND + 1) == &reserved && reserved.phase == DMC_RESERVATION && gold->grants[DMC_RESERVATION] == 1);
  CHECK(zone_leave(zone, &reserved, SECOND + 2) == &other && other.phase == DMC_PRIORITY);
  zone_leave(zone, &other, SECOND + 3);
  zone_close(zone);
}

/* The counts of stamps move a client back: with a delta of 5 its next request is at five spacings. */
static void stamped(void)
{
  struct zone *zone = opened(&one_at_once);
  struct client *batch = client(zone, "batch", 0, 1, 10);
  struct request first, second = {0}, *woken;
  uint64_t due = SECOND + SECOND / 2;
  is_granted(zone, &first, batch, SECOND);
  CHECK(zone_enter(zone, &second, batch, (struct dmc_stamp){5, 0, 1}, SECOND, &woken) == REFUSED_NOT && !woken);
  CHECK(zone_leave(zone, &first, SECOND + 1) == NULL && zone_next_turn(zone) == due && zone_turn(zone, due) == &second);
  zone_leave(zone, &second, due);
  zone_close(zone);
}

/* What grants cost is counted. */
static void counted_costs(void)
{
  struct zone *zone = opened(&one_at_once);
  struct client *batch = client(zone, "batch", 0, 1, 0);
  struct request request = {0}, *woken;
  CHECK(zone_enter(zone, &request, batch, (struct dmc_stamp){7, 7, 7}, SECOND, &woken) == REFUSED_NOT && woken == &request);
  CHECK(batch->grants[DMC_PRIORITY] == 1 && batch->costs[DMC_PRIORITY] == 7 && batch->costs[DMC_RESERVATION] == 0);
  zone_leave(zone, &request, SECOND + 1);
  zone_close(zone);
}

static void full(void)
{
  struct zone_config config = one_at_once;
  config.most_queued = 3;
  config.most_of_client = 2;
  struct zone *zone = opened(&config);
  struct client *gold = client(zone, "gold", 0, 1, 0), *silver = client(zone, "silver", 0, 1, 0);
  struct request requests[5];
  for (int i = 0; i < 3; i++)
    is_granted(zone, &requests[i], gold, 1);
  CHECK(refusal(zone, gold, 1) == REFUSED_CLIENT_FULL && gold->refused == 1);
  is_granted(zone, &requests[3], silver, 1);
  CHECK(refusal(zone, silver, 1) == REFUSED_FULL && silver->refused == 1);
  zone_leave(zone, &requests[1], 2);
  CHECK(!is_granted(zone, &requests[4], silver, 2) && zone->waiting == 3 && refusal(zone, gold, 2) == REFUSED_FULL);
  zone_leave(zone, &requests[0], 3);
  for (int i = 2; i < 5; i++)
    zone_leave(zone, &requests[i], 4);
  zone_leave(zone, &requests[2], 5);
  zone_close(zone);
}

/* A client may have a bound of its own. */
static void full_of_client(void)
{
  struct zone *zone = opened(&one_at_once);
  struct client *gold = client(zone, "gold", 0, 1, 0), *silver = client(zone, "silver", 0, 1, 0);
  struct request requests[4];
  silver->most_waiting = 1;
  is_granted(zone, &requests[0], gold, 1);
  is_granted(zone, &requests[1], silver, 1);
  CHECK(refusal(zone, silver, 1) == REFUSED_CLIENT_FULL && !is_granted(zone, &requests[2], gold, 1));
  zone_leave(zone, &requests[1], 2);
  CHECK(!is_granted(zone, &requests[3], silver, 2) && refusal(zone, silver, 2) == REFUSED_CLIENT_FULL);
  for (int i = 0; i < 4; i++)
    zone_leave(zone, &requests[i], 3);
  for (int i = 0; i < 4; i++)
    zone_leave(zone, &requests[i], 4);
  zone_close(zone);
}

/* Waits that take too long end, the earliest first, and are cancelled. */
static void expired(void)
{
  struct zone_config config = one_at_once;
  config.timeout = 100;
  struct zone *zone = opened(&config);
  struct client *gold = client(zone, "gold", 0, 1, 0);
  struct request requests[4];
  is_granted(zone, &requests[0], gold, 1);
  is_granted(zone, &requests[1], gold, 2);
  is_granted(zone, &requests[2], gold, 3);
  is_granted(zone, &requests[3], gold, 50);
  CHECK(zone_next_turn(zone) == 102 && zone_turn(zone, 101) == NULL);
  CHECK(zone_turn(zone, 103) == &requests[1] && requests[1].next == &requests[2] && requests[2].next == NULL);
  CHECK(requests[1].state == REQUEST_EXPIRED && requests[2].state == REQUEST_EXPIRED && gold->expired == 2);
  CHECK(zone->waiting == 1 && zone->queued == 3 && gold->given_up == 2);
  CHECK(zone_next_turn(zone) == 150 && zone_leave(zone, &requests[1], 104) == NULL && gold->left == 0);
  CHECK(zone_leave(zone, &requests[0], 105) == &requests[3] && zone->queued == 0);
  zone_leave(zone, &requests[3], 106);
  zone_close(zone);
}

/* Other names have few places, are forgotten in time, and their ids are taken again. */
static void crowded(void)
{
  struct zone_config config = one_at_once;
  config.most_others = 2;
  config.idle = config.erase = SECOND;
  struct zone *zone = opened(&config);
  struct client *gold = client(zone, "gold", 0, 1, 0);
  struct rates rates = {0, 1, 0};
  struct request request, other;
  struct client *a = zone_client(zone, "a", &rates, false, 0), *b = zone_client(zone, "b", &rates, false, 0);
  CHECK(a && b && zone_client(zone, "c", &rates, false, 0) == NULL);
  is_granted(zone, &request, a, 0);
  is_granted(zone, &other, b, 0);
  zone_leave(zone, &request, 1);
  uint32_t id = a->id;
  CHECK(zone_turn(zone, 3 * (uint64_t)SECOND) == NULL && zone_find(zone, "a") == NULL && zone_find(zone, "b") == b);
  CHECK(zone_find(zone, "gold") == gold);
  struct client *c = zone_client(zone, "c", &rates, false, 3 * (uint64_t)SECOND);
  CHECK(c && c->id == id && c->requests == 0);
  zone_leave(zone, &other, 3 * (uint64_t)SECOND);
  CHECK(is_granted(zone, &request, c, 3 * (uint64_t)SECOND));
  zone_leave(zone, &request, 3 * (uint64_t)SECOND);
  CHECK(is_granted(zone, &request, gold, 4 * (uint64_t)SECOND));
  zone_leave(zone, &request, 4 * (uint64_t)SECOND);
  zone_close(zone);
}

/* A client begins at the present, whatever its first stamp counts, and again once the queue has forgotten it. */
static void begins(void)
{
  struct zone_config config = one_at_once;
  config.idle = config.erase = SECOND;
  struct zone *zone = opened(&config);
  struct client *batch = client(zone, "batch", 0, 1, 1);
  struct dmc_stamp many = {4000000000u, 1, 1};
  for (uint64_t seconds = 0; seconds < 40; seconds += 10) {
    struct request request = {0}, second = {0}, *woken;
    CHECK(zone_enter(zone, &request, batch, many, seconds * SECOND, &woken) == REFUSED_NOT && woken == &request);
    zone_leave(zone, &request, seconds * SECOND);
    CHECK(zone_enter(zone, &second, batch, one, seconds * SECOND, &woken) == REFUSED_NOT && !woken);
    CHECK(zone_turn(zone, (seconds + 1) * SECOND - 1) == NULL && zone_turn(zone, (seconds + 1) * SECOND) == &second);
    zone_leave(zone, &second, (seconds + 1) * SECOND);
    zone_turn(zone, (seconds + 5) * SECOND);
  }
  zone_close(zone);
}

/* With each allocation refused in turn a request is refused, and nothing is left of it. */
static void short_of_memory(void)
{
  struct zone *zone = opened(&one_at_once);
  struct rates rates = {0, 1, 0};
  unsigned long tries = 0;
  struct request request = {0}, *woken;
  struct client *client = NULL;
  enum refusal answer = REFUSED_MEMORY;
  for (; answer != REFUSED_NOT && tries < 100; tries++) {
    granted = tries;
    client = client ? client : zone_client(zone, "a", &rates, true, 0);
    answer = client ? zone_enter(zone, &request, client, one, 0, &woken) : REFUSED_MEMORY;
    granted = -1ul;
    CHECK(answer == REFUSED_NOT || (answer == REFUSED_MEMORY && zone->queued == 0 && zone->waiting == 0));
  }
  CHECK(3 < tries && tries < 100 && woken == &request);
  zone_leave(zone, &request, 1);
  zone_close(zone);
}

/* ---- tenants */

static struct tenants *front_of(uint32_t servers, uint32_t most, enum dmc_counting counting)
{
  static struct tenants tenants;
  memset(&tenants, 0, sizeof tenants);
  tenants.name = "t";
  tenants.servers = servers;
  tenants.most = most;
  tenants.counting = counting;
  for (uint32_t server = 0; server < servers; server++)
    tenants.server_names[server] = server ? "two" : "one";
  return &tenants;
}

static bool is_stamp(const struct try *try, uint32_t delta, uint32_t rho)
{
  return try->stamp.delta == delta && try->stamp.rho == rho;
}

/* A whole request. */
static void serve(struct tenants *tenants, const char *name, uint32_t server, enum outcome outcome)
{
  struct try try;
  CHECK(tenants_begin(tenants, name, server, 1, &try));
  tenants_end(tenants, &try, outcome);
}

/* What completes at one server is in the next stamp to another. */
static void tracked(enum dmc_counting counting, uint32_t own)
{
  struct tenants *tenants = front_of(2, 10, counting);
  struct try try, at_once;
  serve(tenants, "gold", 0, OUTCOME_RESERVATION);
  serve(tenants, "gold", 0, OUTCOME_PRIORITY);
  serve(tenants, "gold", 0, OUTCOME_EXPIRED);
  serve(tenants, "silver", 1, OUTCOME_PRIORITY);
  CHECK(tenants_begin(tenants, "gold", 1, 1, &try) && is_stamp(&try, 2 + own, 1 + own));
  CHECK(tenants_begin(tenants, "gold", 1, 1, &at_once) && is_stamp(&at_once, own, own));
  tenants_end(tenants, &try, OUTCOME_PRIORITY);
  tenants_end(tenants, &at_once, OUTCOME_PRIORITY);
  CHECK(tenants->count == 2 && tenants->counts[0].completions[DMC_RESERVATION] == 1 && tenants->counts[0].expired == 1);
  CHECK(tenants->counts[1].completions[DMC_PRIORITY] == 3 && tenants->counts[1].stamps == 3 && !tenants->busy.first);
  tenants_close(tenants);
}

/* Stamps that did not reach a queue go out with the next one to that server, and to no other. */
static void carried(enum dmc_counting counting, uint32_t own)
{
  struct tenants *tenants = front_of(2, 10, counting);
  struct try try;
  for (int i = 0; i < 3; i++)
    serve(tenants, "gold", 0, OUTCOME_RESERVATION);
  serve(tenants, "gold", 1, OUTCOME_RETURNED);
  serve(tenants, "gold", 0, OUTCOME_PRIORITY);
  serve(tenants, "gold", 1, OUTCOME_RETURNED);
  CHECK(tenants_begin(tenants, "gold", 1, 1, &try) && is_stamp(&try, 4 + own, 3 + own));
  tenants_end(tenants, &try, OUTCOME_PRIORITY);
  CHECK(tenants_begin(tenants, "gold", 1, 1, &try) && try.stamp.delta == 1);
  tenants_end(tenants, &try, OUTCOME_PRIORITY);
  CHECK(tenants->counts[1].returned == 2 && tenants->lost == 0);
  tenants_close(tenants);
}

/* A completion counts what its request cost, in the stamps to other servers. */
static void costs(enum dmc_counting counting)
{
  struct tenants *tenants = front_of(2, 10, counting);
  bool is_others = counting == DMC_OTHERS;
  struct try try;
  CHECK(tenants_begin(tenants, "gold", 0, 8, &try) && is_stamp(&try, is_others ? 8 : 0, is_others ? 8 : 0) && try.stamp.cost == 8);
  tenants_end(tenants, &try, OUTCOME_RESERVATION);
  CHECK(tenants_begin(tenants, "gold", 1, 3, &try) && is_stamp(&try, is_others ? 11 : 8, is_others ? 11 : 8));
  tenants_end(tenants, &try, OUTCOME_RETURNED); /* whose own cost of 3 is not served */
  CHECK(tenants_begin(tenants, "gold", 1, 2, &try) && is_stamp(&try, is_others ? 10 : 8, is_others ? 10 : 8));
  tenants_end(tenants, &try, OUTCOME_PRIORITY);
  tenants_close(tenants);
}

/* What a server granted to abandoned requests counts as a completion there, in the stamps to others. */
static void abandoned(void)
{
  struct tenants *tenants = front_of(2, 10, DMC_OTHERS);
  struct try try;
  CHECK(tenants_begin(tenants, "gold", 0, 1, &try));
  tenants_add(tenants, &try, (const uint32_t[2]){[DMC_RESERVATION] = 3, [DMC_PRIORITY] = 4});
  tenants_end(tenants, &try, OUTCOME_EXPIRED);
  CHECK(tenants_begin(tenants, "gold", 1, 1, &try) && is_stamp(&try, 8, 4));
  tenants_end(tenants, &try, OUTCOME_PRIORITY);
  CHECK(tenants->counts[0].abandoned == 7 && tenants->counts[0].expired == 1 && tenants->counts[0].completions[DMC_PRIORITY] == 0);
  tenants_close(tenants);
}

/* What a stamp can't say is lost, and said to be. */
static void lost(void)
{
  struct tenants *tenants = front_of(2, 10, DMC_ALL);
  struct try try;
  serve(tenants, "gold", 0, OUTCOME_PRIORITY);
  CHECK(tenants_begin(tenants, "gold", 1, 1, &try) && is_stamp(&try, 1, 0));
  try.stamp.delta = UINT32_MAX;
  tenants_end(tenants, &try, OUTCOME_RETURNED);
  serve(tenants, "gold", 0, OUTCOME_PRIORITY);
  CHECK(tenants_begin(tenants, "gold", 1, 1, &try) && is_stamp(&try, 1, 0) && tenants->lost == 1);
  tenants_end(tenants, &try, OUTCOME_PRIORITY);
  tenants_close(tenants);
}

/* A tenant too many takes the place of the one that was quiet for the longest, and of none with a request under way. */
static void forgotten(void)
{
  struct tenants *tenants = front_of(2, 2, DMC_ALL);
  struct try a, b, c;
  serve(tenants, "a", 0, OUTCOME_PRIORITY);
  serve(tenants, "b", 0, OUTCOME_PRIORITY);
  serve(tenants, "a", 0, OUTCOME_PRIORITY);
  serve(tenants, "c", 0, OUTCOME_PRIORITY);
  CHECK(tenants->forgotten == 1 && tenants->count == 2);
  CHECK(tenants_begin(tenants, "a", 1, 1, &a) && is_stamp(&a, 2, 0));
  CHECK(tenants_begin(tenants, "b", 1, 1, &b) && is_stamp(&b, 0, 0) && tenants->forgotten == 2);
  CHECK(!tenants_begin(tenants, "c", 1, 1, &c) && tenants->count == 2);
  tenants_end(tenants, &a, OUTCOME_PRIORITY);
  CHECK(tenants_begin(tenants, "c", 1, 1, &c) && tenants->forgotten == 3);
  tenants_end(tenants, &b, OUTCOME_PRIORITY);
  tenants_end(tenants, &c, OUTCOME_PRIORITY);
  CHECK(!tenants->busy.first && tenants->quiet.first == b.tenant && tenants->quiet.last == c.tenant);
  tenants_close(tenants);
}

static void tenant_without_memory(void)
{
  struct tenants *tenants = front_of(2, 2, DMC_ALL);
  struct try try;
  unsigned long tries = 0;
  bool is_begun = false;
  for (; !is_begun && tries < 100; tries++) {
    granted = tries;
    is_begun = tenants_begin(tenants, "a", 0, 1, &try);
    granted = -1ul;
    CHECK(is_begun || !tenants->busy.first);
  }
  CHECK(3 < tries && tries < 100);
  tenants_end(tenants, &try, OUTCOME_PRIORITY);
  tenants_close(tenants);
}

/* ---- clients that give up, in a time of their own */

enum { NODES = 3, ASKED = 600, LIMIT = 300, SECONDS = 5 };

/* A request of a tenant, whose client gives up after a second. */
struct arrival {
  struct request request;
  struct try try;
  unsigned node;
  uint64_t came, served; /* and when the device is done with it, once it is granted */
};

/* A front and its nodes. */
struct cluster {
  struct zone nodes[NODES];
  struct client *clients[NODES];
  unsigned count;          /* of nodes */
  struct tenants *tenants;
  struct arrival arrivals[ASKED * SECONDS];
  unsigned came, first;    /* how many came, and the first one that has no outcome yet */
  unsigned responses;
};

static struct cluster *cluster_of(unsigned count, uint32_t most_waiting)
{
  static struct cluster cluster;
  struct zone_config config = one_at_once;
  config.depth = 4;
  memset(&cluster, 0, sizeof cluster);
  cluster.count = count;
  cluster.tenants = front_of(count, 1, DMC_OTHERS);
  for (unsigned node = 0; node < count; node++) {
    CHECK(zone_open(&cluster.nodes[node], &config));
    cluster.clients[node] = client(&cluster.nodes[node], "batch", 0, 1, LIMIT);
    cluster.clients[node]->most_waiting = most_waiting;
  }
  return &cluster;
}

/* The device takes 4 milliseconds for each that is granted. */
static void serve_granted(struct request *granted, uint64_t now)
{
  for (; granted; granted = granted->next)
    ((struct arrival *)granted)->served = now + 4 * MILLISECOND;
}

static void end_arrival(struct cluster *cluster, struct arrival *arrival, enum outcome outcome, uint64_t now)
{
  tenants_end(cluster->tenants, &arrival->try, outcome);
  serve_granted(zone_leave(&cluster->nodes[arrival->node], &arrival->request, now), now);
}

static void arrive(struct cluster *cluster, uint64_t now)
{
  struct arrival *arrival = &cluster->arrivals[cluster->came];
  unsigned node = cluster->came++ % cluster->count;
  struct request *woken;
  *arrival = (struct arrival){.request.counting = DMC_OTHERS, .node = node, .came = now};
  CHECK(tenants_begin(cluster->tenants, "batch", node, 1, &arrival->try));
  if (zone_enter(&cluster->nodes[node], &arrival->request, cluster->clients[node], arrival->try.stamp, now, &woken) == REFUSED_NOT)
    serve_granted(woken, now);
  else
    end_arrival(cluster, arrival, OUTCOME_RETURNED, now);
}

/* What happens to a request at a time. False if it has its outcome. */
static bool is_under_way(struct cluster *cluster, struct arrival *arrival, uint64_t now)
{
  enum request_state state = arrival->request.state;
  if (state == REQUEST_GRANTED && arrival->served <= now) {
    cluster->responses++;
    end_arrival(cluster, arrival, OUTCOME_PRIORITY, now);
  } else if (state != REQUEST_NEW && state != REQUEST_ENDED && arrival->came + SECOND <= now)
    end_arrival(cluster, arrival, OUTCOME_EXPIRED, now);
  return arrival->request.state == REQUEST_WAITS || arrival->request.state == REQUEST_GRANTED;
}

static void pass_millisecond(struct cluster *cluster, uint64_t now)
{
  for (unsigned i = cluster->first; i < cluster->came; i++)
    if (!is_under_way(cluster, &cluster->arrivals[i], now) && i == cluster->first)
      cluster->first++;
  while (cluster->came < now * ASKED / SECOND)
    arrive(cluster, now);
  for (unsigned node = 0; node < cluster->count; node++)
    if (zone_next_turn(&cluster->nodes[node]) <= now)
      serve_granted(zone_turn(&cluster->nodes[node], now), now);
}

/* How many responses there are in the last second, to clients that ask for twice their limit. */
static unsigned last_responses(unsigned nodes, uint32_t most_waiting)
{
  struct cluster *cluster = cluster_of(nodes, most_waiting);
  for (uint64_t now = 0; now < SECONDS * (uint64_t)SECOND; now += MILLISECOND) {
    if (now == (SECONDS - 1) * (uint64_t)SECOND)
      cluster->responses = 0;
    pass_millisecond(cluster, now);
  }
  for (unsigned i = 0; i < cluster->came; i++)
    if (is_under_way(cluster, &cluster->arrivals[i], SECONDS * (uint64_t)SECOND))
      end_arrival(cluster, &cluster->arrivals[i], OUTCOME_EXPIRED, SECONDS * (uint64_t)SECOND);
  for (unsigned node = 0; node < nodes; node++)
    zone_close(&cluster->nodes[node]);
  tenants_close(cluster->tenants);
  return cluster->responses;
}

/* Clients that give up after a second have their limit in responses if few of their requests wait, at one node and over three; and if
   many wait, none in time, or now more and now less. */
static void impatient(void)
{
  unsigned at_one = last_responses(1, 20), at_three = last_responses(NODES, 20), of_many = last_responses(1, 10000);
  CHECK(LIMIT - 3 <= at_one && at_one <= LIMIT + 3);
  CHECK(LIMIT - 3 <= at_three && at_three <= LIMIT + 3);
  CHECK(of_many < LIMIT / 10);
}

/* ---- the status */

static void said(void)
{
  struct zone *zone = opened(&one_at_once);
  client(zone, "a\"b\nc\xff", 10, 2, 0);
  struct tenants *tenants = front_of(2, 2, DMC_ALL);
  serve(tenants, "\x1b[31m", 0, OUTCOME_RESERVATION);
  const struct zone *zones[] = {zone};
  const struct tenants *trackers[] = {tenants};
  struct status status = {zones, 1, trackers, 1};
  char *text = NULL;
  size_t length = 0;
  FILE *stream = open_memstream(&text, &length);
  status_put_json(stream, &status);
  fclose(stream);
  CHECK(strstr(text, "{\"zone\": \"z\", \"client\": \"a\\\"b\\u000ac\\ufffd\", \"reservation_rate\": 10, \"weight\": 2, \"limit\": 0, "));
  CHECK(strstr(text, "{\"tracker\": \"t\", \"tenant\": \"\\u001b[31m\", \"under_way\": 0, \"completions\": 1, \"reservation\": 1}\n"));
  free(text);
  stream = open_memstream(&text, &length);
  status_put_prometheus(stream, &status);
  fclose(stream);
  CHECK(strstr(text, "\ndmclock_weight{zone=\"z\",client=\"a\\\"b\\nc\\\\xff\"} 2\n") && !strstr(text, "dmclock_limit{"));
  CHECK(strstr(text, "\ndmclock_tracker_completions_total{tracker=\"t\",server=\"one\",phase=\"reservation\"} 1\n"));
  CHECK(strstr(text, "\ndmclock_tenant_completions_total{tracker=\"t\",tenant=\"\\\\x1b[31m\",phase=\"reservation\"} 1\n"));
  free(text);
  tenants_close(tenants);
  zone_close(zone);
}

int main(void)
{
  counts();
  written_costs();
  outcomes();
  in_turn();
  cancelled();
  given_back(DMC_OTHERS);
  given_back(DMC_ALL);
  costly_given_up();
  many_given_up();
  many_cancelled();
  come_and_gone();
  all_come_and_gone();
  cancelled_in_turn();
  cancelled_and_forgotten();
  lost_in_queue();
  rejected();
  limited_again();
  limited();
  reserved();
  stamped();
  counted_costs();
  full();
  full_of_client();
  expired();
  crowded();
  begins();
  short_of_memory();
  tracked(DMC_ALL, 0);
  tracked(DMC_OTHERS, 1);
  carried(DMC_ALL, 0);
  carried(DMC_OTHERS, 1);
  costs(DMC_ALL);
  costs(DMC_OTHERS);
  abandoned();
  lost();
  forgotten();
  tenant_without_memory();
  impatient();
  said();
  if (failures == 0)
    printf("zones, tenants, stamps and status: ok\n");
  return failures != 0;
}
