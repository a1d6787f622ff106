/* The worked examples through the header, each code, each kind of allocation refused in turn. Link it with
   -Wl,--wrap=malloc -Wl,--wrap=realloc. */
#include "dmclock.h"

#include <inttypes.h>
#include <stdio.h>
#include <stdlib.h>
#include <string.h>

/* ---- allocations that are refused */

void *__real_malloc(size_t size);
void *__real_realloc(void *at, size_t size);
void *__wrap_malloc(size_t size);
void *__wrap_realloc(void *at, size_t size);

static uint32_t refused_after; /* how many allocations succeed before one is refused; 0: none is refused */
static uint32_t refusals;

static bool is_refused(void) {
  if (refused_after == 0 || --refused_after > 0) return false;
  refusals++;
  return true;
}

void *__wrap_malloc(size_t size) { return is_refused() ? NULL : __real_malloc(size); }

void *__wrap_realloc(void *at, size_t size) { return is_refused() ? NULL : __real_realloc(at, size); }

/* ---- what is compared */

static int failed;

static bool met[33]; /* the codes that were met */

static uint32_t code(uint32_t code) {
  if (code < 33) met[code] = true;
  return code;
}

static void expect_text(const char *name, const char *got, const char *want) {
  if (strcmp(got, want) == 0) {
    printf("ok %s\n", name);
    return;
  }
  printf("FAILED %s\n  got  %s\n  want %s\n", name, got, want);
  failed = 1;
}

static void expect(const char *name, bool holds) {
  printf("%s %s\n", holds ? "ok" : "FAILED", name);
  if (!holds) failed = 1;
}

/* ---- scripts */

enum verb { CLIENT, UPDATE, ADD, ADD_OF_COST, PULL, DROP, CANCEL, CLEAN };

/* a line of a script; a rate of 0 is none; an ADD is of cost 1 and ends with its moment, an ADD_OF_COST is at 0 and ends with its cost; a
   CANCEL is of a client, a token and a counting */
struct line { enum verb verb; uint64_t a, b, c, d, e; };

static const struct dmc_config ticks = DMC_CONFIG(1000);

static char text[4096];

static void write_text(const char *more) { strncat(text, more, sizeof text - strlen(text) - 1); }

/* a tag of these tests, which is not below 0 and below 2^64 */
static void write_tag(struct dmc_tag tag) {
  char word[64];
  if (tag.high != 0) snprintf(word, sizeof word, " far");
  else if (tag.denom == 1) snprintf(word, sizeof word, " %" PRIu64, tag.low);
  else snprintf(word, sizeof word, " %" PRIu64 "/%" PRIu64, tag.low, tag.denom);
  write_text(word);
}

static void write_tags(struct dmc_tags tags) {
  write_text("tags");
  if (tags.reserved) write_tag(tags.r);
  else write_text(tags.r.high == 0 && tags.r.low == 0 && tags.r.denom == 1 ? " -" : " no zero");
  write_tag(tags.l);
  write_tag(tags.p);
}

static void write_pulled(struct dmc_pulled p) {
  char word[128];
  uint32_t plain_cost = 0;
  switch (p.kind) {
    case DMC_GRANTED:
      plain_cost = 1;
      snprintf(word, sizeof word, "grant %u %u %s%s", p.client, p.token, p.phase == DMC_RESERVATION ? "reservation" : "priority",
               p.beyond ? " beyond" : "");
      break;
    case DMC_FUTURE: snprintf(word, sizeof word, "future %" PRIu64 "%s", p.due_low, p.due_high == 0 ? "" : " far"); break;
    default: snprintf(word, sizeof word, p.kind == DMC_NOTHING ? "none" : "no kind");
  }
  write_text(word);
  if (p.cost == plain_cost) return;
  snprintf(word, sizeof word, " cost %u", p.cost);
  write_text(word);
}

/* whether two blocks have the same bytes, which shows that a refused call wrote nothing */
static bool same(const void *a, const void *b, size_t size) { return memcmp(a, b, size) == 0; }

static void write_refused(uint32_t code, bool unwritten) {
  write_text("refused ");
  write_text(dmc_text(code));
  if (!unwritten) write_text(" but written");
}

static uint32_t run_line(struct dmc_queue *queue, struct line l) {
  uint32_t answer, first = 99, second = 99, client = (uint32_t)l.a;
  struct dmc_tags tags, no_tags;
  struct dmc_pulled pulled, no_pull;
  char word[64];
  memset(&tags, 7, sizeof tags);
  memset(&no_tags, 7, sizeof no_tags);
  memset(&pulled, 7, sizeof pulled);
  memset(&no_pull, 7, sizeof no_pull);
  switch (l.verb) {
    case CLIENT:
    case UPDATE:
      answer = code((l.verb == CLIENT ? dmc_queue_register : dmc_queue_update)(queue, client, (uint32_t)l.b, (uint32_t)l.c,
                                                                              (uint32_t)l.d, l.e));
      if (answer == DMC_OK) write_text(l.verb == CLIENT ? "ok" : "updated");
      else write_refused(answer, true);
      return answer;
    case ADD:
    case ADD_OF_COST:
      answer = code(dmc_queue_add(queue, client, (uint32_t)l.b, (uint32_t)l.c, (uint32_t)l.d, l.verb == ADD ? 1 : (uint32_t)l.e,
                                  l.verb == ADD ? l.e : 0, &tags));
      if (answer == DMC_OK) write_tags(tags);
      else write_refused(answer, same(&tags, &no_tags, sizeof tags));
      return answer;
    case PULL:
      answer = code(dmc_queue_pull(queue, l.a, &pulled));
      if (answer == DMC_OK) write_pulled(pulled);
      else write_refused(answer, same(&pulled, &no_pull, sizeof pulled));
      return answer;
    case DROP:
      answer = code(dmc_queue_remove(queue, client, &first));
      snprintf(word, sizeof word, "dropped %u", first);
      break;
    case CANCEL:
      answer = code(dmc_queue_cancel(queue, client, (uint32_t)l.b, (uint32_t)l.c, &first));
      snprintf(word, sizeof word, "dropped %u", first);
      break;
    default:
      answer = code(dmc_queue_clean(queue, l.a, &first, &second));
      snprintf(word, sizeof word, "cleaned %u %u", first, second);
  }
  if (answer == DMC_OK) write_text(word);
  else write_refused(answer, first == 99 && second == 99);
  return answer;
}

/* the replies to a script; a command at which an allocation failed is given again */
static const char *replies(struct dmc_config config, const struct line *lines, size_t count) {
  struct dmc_queue queue = DMC_QUEUE_NONE;
  text[0] = 0;
  uint32_t made = code(dmc_queue_new(&queue, &config));
  if (made == DMC_MEMORY) made = dmc_queue_new(&queue, &config);
  if (made != DMC_OK) return dmc_text(made);
  for (size_t i = 0; i < count; i++) {
    if (i > 0) write_text("; ");
    size_t before = strlen(text);
    if (run_line(&queue, lines[i]) == DMC_MEMORY) {
      text[before] = 0;
      run_line(&queue, lines[i]);
    }
  }
  dmc_queue_free(&queue);
  return text;
}

#define RUN(name, config, want, ...)                                                           \
  do {                                                                                         \
    const struct line lines[] = {__VA_ARGS__};                                                 \
    expect_text(name, replies(config, lines, sizeof lines / sizeof *lines), want);             \
  } while (0)

static void run_scripts(void) {
  struct dmc_config allow = ticks, reject = ticks, ratios = ticks, second = dmc_config_of(1), aged = ticks;
  allow.at_limit = DMC_ALLOW;
  reject.at_limit = DMC_REJECT;
  reject.threshold = 50;
  ratios.tag_kind = DMC_RATIO;
  second.tag_kind = DMC_RATIO;
  aged.idle_age = 100;
  aged.erase_age = 1000;
  RUN("granted_by_reservation", ticks, "ok; tags 0 0 0; grant 1 9 reservation",
      {CLIENT, 1, 10, 1, 0, 0}, {ADD, 1, 9, 0, 0, 0}, {PULL, 0, 0, 0, 0, 0});
  RUN("granted_at_limit", ticks, "ok; tags 100 50 1000; future 50; grant 1 7 priority; none",
      {CLIENT, 1, 10, 1, 20, 0}, {ADD, 1, 7, 1, 1, 0}, {PULL, 0, 0, 0, 0, 0}, {PULL, 50, 0, 0, 0, 0}, {PULL, 50, 0, 0, 0, 0});
  RUN("allowed_beyond", allow,
      "ok; tags 100 50 1000; tags 200 100 2000; grant 1 1 priority beyond; grant 1 2 reservation; none",
      {CLIENT, 1, 10, 1, 20, 0}, {ADD, 1, 1, 1, 1, 0}, {ADD, 1, 2, 1, 1, 0}, {PULL, 0, 0, 0, 0, 0}, {PULL, 100, 0, 0, 0, 0},
      {PULL, 100, 0, 0, 0, 0});
  RUN("refused_over_limit", reject,
      "ok; refused over limit; tags - 100 1000; refused over limit; tags - 200 2000; grant 1 11 priority; future 200",
      {CLIENT, 1, 0, 1, 10, 0}, {ADD, 1, 11, 1, 0, 0}, {ADD, 1, 11, 1, 0, 50}, {ADD, 1, 12, 1, 0, 100}, {ADD, 1, 12, 1, 0, 150},
      {PULL, 150, 0, 0, 0, 0}, {PULL, 199, 0, 0, 0, 0});
  RUN("updates", ticks,
      "ok; tags - 0 1000; updated; tags - 0 1500; refused busy; dropped 2; updated; tags 100 0 2000; "
      "refused inexact weight; refused unknown",
      {CLIENT, 1, 0, 1, 0, 0}, {ADD, 1, 1, 1, 0, 0}, {UPDATE, 1, 0, 2, 0, 0}, {ADD, 1, 2, 1, 0, 0}, {UPDATE, 1, 10, 2, 0, 0},
      {DROP, 1, 0, 0, 0, 0}, {UPDATE, 1, 10, 2, 0, 0}, {ADD, 1, 3, 1, 1, 0}, {UPDATE, 1, 0, 3, 0, 0}, {UPDATE, 2, 0, 1, 0, 0});
  RUN("exact_thirds", ratios, "ok; tags - 0 1000/3; tags - 0 2000/3; tags - 0 1000",
      {CLIENT, 1, 0, 3, 0, 0}, {ADD, 1, 1, 1, 0, 0}, {ADD, 1, 2, 1, 0, 0}, {ADD, 1, 3, 1, 0, 0});
  RUN("a_request_of_four", ticks,
      "ok; ok; tags 0 0 0; tags 0 0 4000; tags - 0 0; grant 1 11 reservation cost 4; grant 1 12 reservation cost 4; "
      "grant 2 21 priority; none",
      {CLIENT, 1, 100, 1, 0, 0}, {CLIENT, 2, 0, 1, 0, 0}, {ADD_OF_COST, 1, 11, 0, 0, 4}, {ADD_OF_COST, 1, 12, 4, 0, 4},
      {ADD, 2, 21, 0, 0, 0}, {PULL, 0, 0, 0, 0, 0}, {PULL, 0, 0, 0, 0, 0}, {PULL, 0, 0, 0, 0, 0}, {PULL, 0, 0, 0, 0, 0});
  RUN("reduced_by_the_cost", ticks,
      "ok; tags 0 0 0; tags 800 0 8000; tags 1200 0 12000; grant 1 11 reservation; grant 1 12 priority cost 4; grant 1 13 priority",
      {CLIENT, 1, 10, 1, 0, 0}, {ADD, 1, 11, 0, 0, 0}, {ADD_OF_COST, 1, 12, 8, 8, 4}, {ADD, 1, 13, 4, 4, 0}, {PULL, 0, 0, 0, 0, 0},
      {PULL, 0, 0, 0, 0, 0}, {PULL, 799, 0, 0, 0, 0});
  RUN("reduced_by_the_cost, a tick later", ticks,
      "ok; tags 0 0 0; tags 800 0 8000; tags 1200 0 12000; grant 1 11 reservation; grant 1 12 priority cost 4; grant 1 13 reservation",
      {CLIENT, 1, 10, 1, 0, 0}, {ADD, 1, 11, 0, 0, 0}, {ADD_OF_COST, 1, 12, 8, 8, 4}, {ADD, 1, 13, 4, 4, 0}, {PULL, 0, 0, 0, 0, 0},
      {PULL, 0, 0, 0, 0, 0}, {PULL, 800, 0, 0, 0, 0});
  RUN("a_cost_at_the_limit", ticks, "ok; tags - 400 4000; future 400; grant 1 1 priority cost 4294967295; none",
      {CLIENT, 1, 0, 1, 10, 0}, {ADD_OF_COST, 1, 1, 4, 4, UINT32_MAX}, {PULL, 0, 0, 0, 0, 0}, {PULL, 400, 0, 0, 0, 0},
      {PULL, 400, 0, 0, 0, 0});
  RUN("cancelled", ticks,
      "ok; tags - 100 1000; tags - 200 2000; tags - 300 3000; tags - 400 4000; dropped 1; grant 1 11 priority; "
      "grant 1 13 priority; future 300; dropped 1; tags - 350 3000",
      {CLIENT, 1, 0, 1, 10, 0}, {ADD, 1, 11, 1, 1, 0}, {ADD, 1, 12, 1, 1, 0}, {ADD, 1, 13, 1, 1, 0}, {ADD, 1, 14, 1, 1, 250},
      {CANCEL, 1, 12, DMC_OTHERS, 0, 0}, {PULL, 100, 0, 0, 0, 0}, {PULL, 200, 0, 0, 0, 0}, {PULL, 299, 0, 0, 0, 0},
      {CANCEL, 1, 14, DMC_OTHERS, 0, 0}, {ADD, 1, 15, 1, 1, 299});
  RUN("cancelled, idle between", ticks,
      "ok; tags - 100 1000; tags - 200 2000; tags - 300 3000; dropped 1; dropped 1; future 300; grant 1 13 priority",
      {CLIENT, 1, 0, 1, 10, 0}, {ADD, 1, 11, 1, 1, 0}, {ADD, 1, 12, 1, 1, 200}, {ADD, 1, 13, 1, 1, 200},
      {CANCEL, 1, 12, DMC_OTHERS, 0, 0}, {CANCEL, 1, 11, DMC_OTHERS, 0, 0}, {PULL, 250, 0, 0, 0, 0}, {PULL, 300, 0, 0, 0, 0});
  RUN("cancelled, all", ticks,
      "ok; tags - 100 1000; tags - 200 2000; tags - 300 3000; tags - 400 4000; dropped 1; grant 1 11 priority; future 300; "
      "future 300; grant 1 13 priority",
      {CLIENT, 1, 0, 1, 10, 0}, {ADD, 1, 11, 1, 1, 0}, {ADD, 1, 12, 1, 1, 0}, {ADD, 1, 13, 1, 1, 0}, {ADD, 1, 14, 1, 1, 250},
      {CANCEL, 1, 12, DMC_ALL, 0, 0}, {PULL, 100, 0, 0, 0, 0}, {PULL, 200, 0, 0, 0, 0}, {PULL, 299, 0, 0, 0, 0},
      {PULL, 300, 0, 0, 0, 0});
  RUN("cancelled, several", ticks,
      "ok; ok; tags - 0 1000; tags - 0 2000; tags - 0 1000; tags - 0 2000; dropped 2; dropped 0; grant 1 11 priority; "
      "grant 2 12 priority; none",
      {CLIENT, 1, 0, 1, 0, 0}, {CLIENT, 2, 0, 1, 0, 0}, {ADD, 1, 11, 1, 1, 0}, {ADD, 1, 12, 1, 1, 0}, {ADD, 2, 12, 1, 1, 0},
      {ADD, 1, 12, 1, 1, 0}, {CANCEL, 1, 12, DMC_OTHERS, 0, 0}, {CANCEL, 1, 12, DMC_ALL, 0, 0}, {PULL, 0, 0, 0, 0, 0},
      {PULL, 0, 0, 0, 0, 0}, {PULL, 0, 0, 0, 0, 0});
  RUN("idle_then_erased", aged,
      "ok; cleaned 0 0; tags - 100 100; grant 1 1 priority; cleaned 0 0; cleaned 1 0; cleaned 0 0; cleaned 0 1; "
      "refused unknown",
      {CLIENT, 1, 0, 1, 0, 0}, {CLEAN, 100, 0, 0, 0, 0}, {ADD, 1, 1, 0, 0, 100}, {PULL, 100, 0, 0, 0, 0}, {CLEAN, 199, 0, 0, 0, 0},
      {CLEAN, 200, 0, 0, 0, 0}, {CLEAN, 1099, 0, 0, 0, 0}, {CLEAN, 1100, 0, 0, 0, 0}, {ADD, 1, 2, 0, 0, 1100});
  RUN("reduction_out_of_range", second,
      "ok; tags 1/65537 0 1; tags 2/65537 0 2; updated; refused range; grant 1 1 reservation; grant 1 2 reservation",
      {CLIENT, 1, 65537, 1, 0, 0}, {ADD, 1, 1, 1, 1, 0}, {ADD, 1, 2, 1, 1, 0}, {UPDATE, 1, 65539, 1, 0, 0}, {PULL, 0, 0, 0, 0, 0},
      {PULL, 1, 0, 0, 0, 0}, {PULL, 1, 0, 0, 0, 0});
  RUN("refused_values", ticks,
      "ok; refused bad moment; refused bad rate; refused known; refused inexact reservation; refused inexact weight; "
      "refused inexact limit; refused bad moment; refused bad params; refused bad params; refused bad cost; refused unknown; "
      "refused bad moment; refused bad moment; refused unknown; refused bad config; refused unknown; dropped 0",
      {CLIENT, 1, 0, 1, 0, 0}, {CLIENT, 1, 0, 0, 0, UINT64_MAX}, {CLIENT, 1, 0, 0, 0, 0}, {CLIENT, 1, 3, 3, 3, 0},
      {CLIENT, 2, 3, 3, 3, 0}, {CLIENT, 2, 10, 3, 3, 0}, {CLIENT, 2, 10, 1, 3, 0}, {ADD, 2, 1, 0, 1, UINT64_MAX},
      {ADD, 2, 1, 0, 1, 0}, {ADD_OF_COST, 2, 1, 0, 1, 0}, {ADD_OF_COST, 2, 1, 0, 0, 0}, {ADD, 2, 1, 0, 0, 0},
      {PULL, UINT64_MAX, 0, 0, 0, 0}, {CLEAN, UINT64_MAX, 0, 0, 0, 0}, {DROP, 2, 0, 0, 0, 0}, {CANCEL, 2, 1, 2, 0, 0},
      {CANCEL, 2, 1, DMC_OTHERS, 0, 0}, {CANCEL, 1, 1, DMC_OTHERS, 0, 0});
}

/* ---- configurations */

/* A client is alone, and another comes. */
#define NEWCOMER                                                                                                             \
  {CLIENT, 1, 0, 1, 0, 0}, {CLIENT, 2, 0, 1, 0, 0}, {ADD, 1, 11, 1, 1, 0}, {ADD, 1, 12, 1, 1, 0}, {PULL, 0, 0, 0, 0, 0},     \
      {PULL, 0, 0, 0, 0, 0}, {ADD, 2, 21, 1, 1, 0}, {ADD, 1, 13, 1, 1, 0}, {ADD, 2, 22, 1, 1, 0}, {PULL, 0, 0, 0, 0, 0},     \
      {PULL, 0, 0, 0, 0, 0}, {PULL, 0, 0, 0, 0, 0}

static void run_newcomers(void) {
  struct dmc_config served = ticks;
  served.shares = DMC_VIRTUAL;
  RUN("newcomer_clock", ticks,
      "ok; ok; tags - 0 1000; tags - 0 2000; grant 1 11 priority; grant 1 12 priority; tags - 0 1000; tags - 0 3000; "
      "tags - 0 2000; grant 2 21 priority; grant 2 22 priority; grant 1 13 priority",
      NEWCOMER);
  RUN("newcomer_virtual", served,
      "ok; ok; tags - 0 1000; tags - 0 2000; grant 1 11 priority; grant 1 12 priority; tags - 0 2000; tags - 0 3000; "
      "tags - 0 3000; grant 2 21 priority; grant 1 13 priority; grant 2 22 priority",
      NEWCOMER);
}

/* Whether a queue is refused that is asked for so. */
static bool is_refused_config(struct dmc_config config) {
  struct dmc_queue queue = DMC_QUEUE_NONE;
  return code(dmc_queue_new(&queue, &config)) == DMC_BAD_CONFIG && queue.held == 0;
}

static void run_configs(void) {
  struct dmc_config config = dmc_config_of(DMC_FINE_HZ);
  expect("the defaults", config.hz == DMC_FINE_HZ && config.idle_age == DMC_MAX_AGE && config.erase_age == DMC_MAX_AGE && config.threshold == 0 &&
                             config.tag_kind == DMC_TICK && config.at_limit == DMC_WAIT && config.shares == DMC_CLOCK);
  expect("ticks a second", is_refused_config(dmc_config_of(0)) && is_refused_config(dmc_config_of(1000000001)));
  config.erase_age = DMC_MAX_AGE + 1;
  expect("an age past the greatest", is_refused_config(config));
  config.erase_age = DMC_MAX_AGE - 1;
  expect("idle after it is erased", is_refused_config(config));
  config = dmc_config_of(1000);
  config.tag_kind = 2;
  expect("no kind of tags", is_refused_config(config));
  config = dmc_config_of(1000);
  config.at_limit = 3;
  expect("nothing at the limit", is_refused_config(config));
  config.at_limit = DMC_REJECT;
  config.threshold = DMC_MAX_AGE + 1;
  expect("a threshold past the greatest", is_refused_config(config));
  config = dmc_config_of(1000);
  config.shares = 2;
  expect("no shares", is_refused_config(config));
  config = dmc_config_of(1000);
  config.threshold = 1;
  expect("a threshold", is_refused_config(config));
}

/* ---- trackers */

static bool is_stamp(struct dmc_stamp stamp, uint32_t delta, uint32_t rho, uint32_t cost) {
  return stamp.delta == delta && stamp.rho == rho && stamp.cost == cost;
}

static void write_stamp_of_cost(struct dmc_tracker *tracker, uint32_t server, uint32_t cost) {
  struct dmc_stamp stamp = {99, 99, 99};
  char word[64];
  uint32_t answer = code(dmc_tracker_stamp(tracker, server, cost, &stamp));
  if (answer == DMC_OK) {
    snprintf(word, sizeof word, "(%u,%u)%s; ", stamp.delta, stamp.rho, stamp.cost == cost ? "" : " of another cost");
    write_text(word);
  } else {
    write_refused(answer, is_stamp(stamp, 99, 99, 99));
  }
}

static void write_stamp(struct dmc_tracker *tracker, uint32_t server) { write_stamp_of_cost(tracker, server, 1); }

static void write_response(struct dmc_tracker *tracker, uint32_t server, uint32_t phase, uint32_t cost) {
  uint32_t answer = code(dmc_tracker_respond(tracker, server, phase, cost));
  write_text(dmc_text(answer));
  write_text("; ");
}

static void write_track(const struct dmc_track *track) {
  char word[128];
  snprintf(word, sizeof word,
           "sent (%" PRIu64 ",%" PRIu64 ") pending (%" PRIu64 ",%" PRIu64 ") completions (%" PRIu64 ",%" PRIu64 "); ",
           track->sent_delta, track->sent_rho, track->pending_delta, track->pending_rho, track->completions, track->reservation);
  write_text(word);
}

static void write_status(struct dmc_tracker *tracker, uint32_t server) {
  struct dmc_track track;
  code(dmc_tracker_status(tracker, server, &track));
  write_track(&track);
}

static const char *three_stamps(uint32_t counting) {
  struct dmc_tracker tracker = DMC_TRACKER_NONE;
  text[0] = 0;
  while (code(dmc_tracker_new(&tracker, 2, 10, counting)) == DMC_MEMORY) write_text("");
  write_stamp(&tracker, 0);
  write_response(&tracker, 0, DMC_RESERVATION, 1);
  write_stamp(&tracker, 1);
  write_response(&tracker, 1, DMC_PRIORITY, 1);
  write_stamp(&tracker, 0);
  write_status(&tracker, 0);
  write_status(&tracker, 1);
  dmc_tracker_free(&tracker);
  return text;
}

/* Two responses of server 0, a skip of server 1, and a stamp to each. */
static const char *skip_between(uint32_t counting) {
  struct dmc_tracker tracker = DMC_TRACKER_NONE;
  text[0] = 0;
  while (code(dmc_tracker_new(&tracker, 2, UINT64_C(1) << 62, counting)) == DMC_MEMORY) write_text("");
  for (uint32_t phase = 0; phase < 2; phase++) write_response(&tracker, 0, phase, 1);
  write_text(dmc_tracker_skip(&tracker, 1) == DMC_OK ? "ok; " : "refused; ");
  write_status(&tracker, 1);
  write_stamp(&tracker, 0);
  write_stamp(&tracker, 1);
  dmc_tracker_free(&tracker);
  return text;
}

/* Three stamps and two responses of these costs between them, and what is reported of both servers. */
static const char *stamps_of_costs(uint32_t counting, const uint32_t costs[5]) {
  struct dmc_tracker tracker = DMC_TRACKER_NONE;
  text[0] = 0;
  while (code(dmc_tracker_new(&tracker, 2, 100, counting)) == DMC_MEMORY) write_text("");
  write_stamp_of_cost(&tracker, 0, costs[0]);
  write_response(&tracker, 0, DMC_RESERVATION, costs[1]);
  write_stamp_of_cost(&tracker, 1, costs[2]);
  write_response(&tracker, 1, DMC_PRIORITY, costs[3]);
  write_stamp_of_cost(&tracker, 0, costs[4]);
  write_status(&tracker, 0);
  write_status(&tracker, 1);
  dmc_tracker_free(&tracker);
  return text;
}

/* A completion and a stamp of the greatest cost, and what is past the greatest delta and past `most`. */
static const char *greatest_costs(uint32_t counting) {
  struct dmc_tracker tracker = DMC_TRACKER_NONE;
  text[0] = 0;
  while (code(dmc_tracker_new(&tracker, 2, UINT64_C(1) << 32, counting)) == DMC_MEMORY) write_text("");
  write_response(&tracker, 0, DMC_PRIORITY, UINT32_MAX);
  write_response(&tracker, 0, DMC_PRIORITY, 2);
  write_response(&tracker, 0, DMC_PRIORITY, 1);
  write_stamp_of_cost(&tracker, 1, UINT32_MAX);
  dmc_tracker_free(&tracker);
  return text;
}

static void run_costs(void) {
  static const uint32_t of_all[] = {8, 8, 1, 2, 1}, of_others[] = {8, 8, 3, 3, 1};
  struct dmc_queue queue = DMC_QUEUE_NONE;
  struct dmc_tracker tracker = DMC_TRACKER_NONE;
  struct dmc_tags tags;
  struct dmc_stamp stamp = {99, 99, 99};
  expect_text("costs_are_counted", stamps_of_costs(DMC_ALL, of_all),
              "(0,0); ok; (8,8); ok; (10,8); sent (10,8) pending (0,0) completions (10,8); "
              "sent (8,8) pending (2,0) completions (10,8); ");
  expect_text("costs_are_counted, others", stamps_of_costs(DMC_OTHERS, of_others),
              "(8,8); ok; (11,11); ok; (4,1); sent (12,9) pending (0,0) completions (11,8); "
              "sent (11,11) pending (0,0) completions (11,8); ");
  expect_text("the greatest costs", greatest_costs(DMC_ALL), "ok; tracker full; ok; refused tracker full");
  expect_text("the greatest costs, others", greatest_costs(DMC_OTHERS), "ok; tracker full; ok; refused tracker full");
  expect("a cost of 0 and no queue", code(dmc_queue_add(&queue, 2, 1, 0, 1, 0, UINT64_MAX, &tags)) == DMC_NONE_HELD &&
                                         code(dmc_tracker_stamp(&tracker, 9, 0, &stamp)) == DMC_NONE_HELD &&
                                         code(dmc_tracker_respond(&tracker, 9, 2, 0)) == DMC_NONE_HELD);
  while (code(dmc_queue_new(&queue, &ticks)) == DMC_MEMORY || code(dmc_tracker_new(&tracker, 2, 9, DMC_ALL)) == DMC_MEMORY) continue;
  expect("a cost of 0 after the moment and the counts", code(dmc_queue_add(&queue, 2, 1, 0, 1, 0, UINT64_MAX, &tags)) == DMC_BAD_MOMENT &&
                                                            code(dmc_queue_add(&queue, 2, 1, 0, 1, 0, 0, &tags)) == DMC_BAD_PARAMS &&
                                                            code(dmc_queue_add(&queue, 2, 1, 1, 1, 0, 0, &tags)) == DMC_BAD_COST &&
                                                            code(dmc_queue_add_single(&queue, 2, 1, 0, 0)) == DMC_BAD_COST);
  expect("a cost of 0 before the server", code(dmc_tracker_stamp(&tracker, 9, 0, &stamp)) == DMC_BAD_COST &&
                                              code(dmc_tracker_stamp(&tracker, 9, 1, &stamp)) == DMC_NO_SERVER && is_stamp(stamp, 99, 99, 99));
  expect("a cost of 0 after the phase", code(dmc_tracker_respond(&tracker, 9, 2, 0)) == DMC_BAD_PHASE &&
                                            code(dmc_tracker_respond(&tracker, 9, 1, 0)) == DMC_BAD_COST &&
                                            code(dmc_tracker_respond(&tracker, 9, 1, 1)) == DMC_NO_SERVER);
  dmc_queue_free(&queue);
  dmc_tracker_free(&tracker);
}

/* Whether a stamp with the counts of another one has these counts, and its own cost. */
static bool is_sum(struct dmc_stamp stamp, struct dmc_stamp returned, uint32_t counting, uint32_t delta, uint32_t rho) {
  struct dmc_stamp sum = stamp;
  return code(dmc_stamp_with_returned(&sum, &returned, counting)) == DMC_OK && is_stamp(sum, delta, rho, stamp.cost);
}

/* Whether the counts of another one are refused with this code, and nothing is written. */
static bool is_not_added(struct dmc_stamp stamp, struct dmc_stamp returned, uint32_t counting, uint32_t refusal) {
  const struct dmc_stamp before = stamp;
  return code(dmc_stamp_with_returned(&stamp, &returned, counting)) == refusal && same(&stamp, &before, sizeof stamp);
}

static void run_returned(void) {
  const struct dmc_stamp stamp = {3, 1, 2}, returned = {7, 5, 4}, few = {2, 0, 1}, own = {4, 4, 4}, less = {3, 0, 4}, none = {0, 1, 0};
  const struct dmc_stamp full = {UINT32_MAX - 6, 0, 9}, all = {UINT32_MAX, UINT32_MAX, 1};
  expect("returned", is_sum(stamp, returned, DMC_ALL, 10, 6) && is_sum(stamp, few, DMC_ALL, 5, 1) && is_sum(stamp, own, DMC_ALL, 7, 5));
  expect("returned, others", is_sum(stamp, returned, DMC_OTHERS, 6, 2) && is_sum(stamp, own, DMC_OTHERS, 3, 1) &&
                                 is_sum(stamp, less, DMC_OTHERS, 3, 1));
  expect("returned to the greatest delta", is_sum(full, (struct dmc_stamp){6, 2, 1}, DMC_ALL, UINT32_MAX, 2) &&
                                               is_sum(full, (struct dmc_stamp){10, 6, 4}, DMC_OTHERS, UINT32_MAX, 2) &&
                                               is_sum((struct dmc_stamp){1, 1, 1}, all, DMC_OTHERS, UINT32_MAX, UINT32_MAX));
  expect("returned past the greatest delta", is_not_added(full, (struct dmc_stamp){7, 2, 1}, DMC_ALL, DMC_TRACK_FULL) &&
                                                 is_not_added(full, (struct dmc_stamp){11, 6, 4}, DMC_OTHERS, DMC_TRACK_FULL) &&
                                                 is_not_added((struct dmc_stamp){1, 0, 1}, all, DMC_ALL, DMC_TRACK_FULL));
  expect("no counting", is_not_added(none, none, 2, DMC_BAD_CONFIG));
  expect("no counts", is_not_added(none, none, DMC_ALL, DMC_BAD_PARAMS) && is_not_added(stamp, none, DMC_ALL, DMC_BAD_PARAMS));
  expect("no cost", is_not_added((struct dmc_stamp){3, 1, 0}, none, DMC_ALL, DMC_BAD_COST) &&
                        is_not_added(stamp, (struct dmc_stamp){1, 1, 0}, DMC_ALL, DMC_BAD_COST));
}

static void run_trackers(void) {
  struct dmc_tracker tracker = DMC_TRACKER_NONE;
  struct dmc_track track;
  expect_text("two_server_tracker", three_stamps(DMC_ALL),
              "(0,0); ok; (1,1); ok; (2,1); sent (2,1) pending (0,0) completions (2,1); "
              "sent (1,1) pending (1,0) completions (2,1); ");
  expect_text("others_tracker", three_stamps(DMC_OTHERS),
              "(1,1); ok; (2,2); ok; (2,1); sent (3,2) pending (0,0) completions (2,1); "
              "sent (2,2) pending (0,0) completions (2,1); ");
  expect_text("skipped_server", skip_between(DMC_ALL),
              "ok; ok; ok; sent (0,0) pending (0,0) completions (2,1); (2,1); (0,0); ");
  expect_text("skipped_server, others", skip_between(DMC_OTHERS),
              "ok; ok; ok; sent (0,0) pending (0,0) completions (2,1); (1,1); (1,1); ");
  while (code(dmc_tracker_new(&tracker, 2, 1, DMC_OTHERS)) == DMC_MEMORY) continue;
  text[0] = 0;
  write_stamp(&tracker, 0);
  write_stamp(&tracker, 0);
  expect_text("others_tracker, most 1", text, "(1,1); refused tracker full");
  expect("a tracker twice", code(dmc_tracker_new(&tracker, 0, 0, 9)) == DMC_HELD);
  expect("no phase", code(dmc_tracker_respond(&tracker, 9, 2, 1)) == DMC_BAD_PHASE);
  expect("no server", code(dmc_tracker_respond(&tracker, 2, 1, 1)) == DMC_NO_SERVER);
  expect("a skip of no server", code(dmc_tracker_skip(&tracker, 2)) == DMC_NO_SERVER);
  dmc_tracker_free(&tracker);
  dmc_tracker_free(&tracker);
  expect("a tracker that is freed", code(dmc_tracker_status(&tracker, 0, &track)) == DMC_NONE_HELD);
  expect("a skip by no tracker", code(dmc_tracker_skip(&tracker, 0)) == DMC_NONE_HELD);
  expect("65 servers", code(dmc_tracker_new(&tracker, 65, 1, DMC_ALL)) == DMC_LIMIT);
  expect("past 2^62", code(dmc_tracker_new(&tracker, 1, (UINT64_C(1) << 62) + 1, DMC_ALL)) == DMC_LIMIT);
  expect("no form", code(dmc_tracker_new(&tracker, 65, 1, 2)) == DMC_BAD_CONFIG);
}

/* ---- shards */

typedef uint32_t stamps(struct dmc_shards *, uint32_t shard, struct dmc_stamp *);

static void write_stamped(stamps *call, struct dmc_shards *shards, uint32_t shard, struct dmc_stamp stamp) {
  struct dmc_stamp came = stamp;
  char word[64];
  uint32_t answer = code(call(shards, shard, &stamp));
  if (answer == DMC_OK) {
    snprintf(word, sizeof word, "(%u,%u)%s; ", stamp.delta, stamp.rho, stamp.cost == came.cost ? "" : " of another cost");
    write_text(word);
  } else {
    write_refused(answer, is_stamp(stamp, came.delta, came.rho, came.cost));
  }
}

static void write_arrival(struct dmc_shards *shards, uint32_t shard, struct dmc_stamp stamp) {
  write_stamped(dmc_shards_arrive, shards, shard, stamp);
}

static void write_give_back(struct dmc_shards *shards, uint32_t shard, struct dmc_stamp stamp) {
  write_text(dmc_text(code(dmc_shards_give_back(shards, shard, &stamp))));
  write_text("; ");
}

static void write_shard(struct dmc_shards *shards, uint32_t shard) {
  struct dmc_track track;
  code(dmc_shards_status(shards, shard, &track));
  write_track(&track);
}

/* A request to shard 0, one to shard 1 that its queue refuses, and one to shard 1 again. */
static const char *three_arrivals(void) {
  struct dmc_shards shards = DMC_SHARDS_NONE;
  text[0] = 0;
  while (code(dmc_shards_new(&shards, 2, 6)) == DMC_MEMORY) write_text("");
  write_arrival(&shards, 0, (struct dmc_stamp){2, 1, 1});
  write_arrival(&shards, 1, (struct dmc_stamp){3, 0, 4});
  write_give_back(&shards, 1, (struct dmc_stamp){5, 1, 4});
  write_arrival(&shards, 1, (struct dmc_stamp){1, 1, 2});
  write_shard(&shards, 0);
  write_shard(&shards, 1);
  dmc_shards_free(&shards);
  return text;
}

/* A shard that was not used while 2^32-1 came for the other, before it is skipped and after. */
static const char *skip_of_shard(void) {
  struct dmc_shards shards = DMC_SHARDS_NONE;
  text[0] = 0;
  while (code(dmc_shards_new(&shards, 2, (uint64_t)1 << 62)) == DMC_MEMORY) write_text("");
  write_arrival(&shards, 0, (struct dmc_stamp){UINT32_MAX, 1, 1});
  write_arrival(&shards, 1, (struct dmc_stamp){1, 0, 1});
  write_text("; ");
  write_text(dmc_text(code(dmc_shards_skip(&shards, 1))));
  write_text("; ");
  write_arrival(&shards, 1, (struct dmc_stamp){1, 0, 1});
  write_shard(&shards, 1);
  dmc_shards_free(&shards);
  return text;
}

/* The next stamp is that of the arrival, and without an arrival nothing has come in. */
static const char *next_stamps(void) {
  struct dmc_shards shards = DMC_SHARDS_NONE;
  text[0] = 0;
  while (code(dmc_shards_new(&shards, 2, 6)) == DMC_MEMORY) write_text("");
  write_arrival(&shards, 0, (struct dmc_stamp){2, 1, 1});
  for (int i = 0; i < 2; i++) {
    write_stamped(dmc_shards_next, &shards, 1, (struct dmc_stamp){3, 0, 4});
    write_shard(&shards, 1);
  }
  write_arrival(&shards, 1, (struct dmc_stamp){3, 0, 4});
  dmc_shards_free(&shards);
  return text;
}

static void run_shards(void) {
  struct dmc_shards shards = dmc_shards_none();
  struct dmc_track track;
  expect_text("two_shards", three_arrivals(),
              "(2,1); (5,1); ok; (6,2); sent (2,1) pending (4,1) completions (6,2); "
              "sent (6,2) pending (0,0) completions (6,2); ");
  expect_text("next_stamp", next_stamps(),
              "(2,1); (5,1); sent (0,0) pending (2,1) completions (2,1); (5,1); sent (0,0) pending (2,1) completions (2,1); (5,1); ");
  expect_text("skipped_shard", skip_of_shard(),
              "(4294967295,1); refused tracker full; ok; (1,0); sent (1,0) pending (0,0) completions (4294967296,1); ");
  while (code(dmc_shards_new(&shards, 1, 5)) == DMC_MEMORY) continue;
  expect("a skip of no shard", code(dmc_shards_skip(&shards, 1)) == DMC_NO_SERVER);
  text[0] = 0;
  write_arrival(&shards, 0, (struct dmc_stamp){3, 1, 1});
  write_give_back(&shards, 0, (struct dmc_stamp){3, 1, 1});
  write_give_back(&shards, 0, (struct dmc_stamp){3, 1, 1});
  write_give_back(&shards, 1, (struct dmc_stamp){3, 1, 1});
  write_give_back(&shards, 1, (struct dmc_stamp){3, 1, 0});
  expect_text("given back twice", text, "(3,1); ok; not sent; no server; bad cost; ");
  text[0] = 0;
  write_arrival(&shards, 0, (struct dmc_stamp){3, 0, 1});
  expect_text("more than the most that can come", text, "refused tracker full");
  text[0] = 0;
  write_arrival(&shards, 1, (struct dmc_stamp){3, 4, 1});
  expect_text("no stamp", text, "refused bad params");
  expect("a shard tracker twice", code(dmc_shards_new(&shards, 0, 0)) == DMC_HELD);
  dmc_shards_free(&shards);
  dmc_shards_free(&shards);
  expect("a shard tracker that is freed", code(dmc_shards_status(&shards, 0, &track)) == DMC_NONE_HELD && code(dmc_shards_skip(&shards, 0)) == DMC_NONE_HELD);
  expect("65 shards", code(dmc_shards_new(&shards, 65, 1)) == DMC_LIMIT);
  expect("no deltas", code(dmc_shards_new(&shards, 1, 0)) == DMC_LIMIT);
}

/* ---- limits, memory, codes */

static void run_limits(void) {
  struct dmc_queue queue = DMC_QUEUE_NONE;
  struct dmc_tags tags;
  struct dmc_pulled pulled;
  uint32_t wrong = dmc_queue_new(&queue, &ticks), clients, requests;
  for (uint32_t client = 0; client < 65536; client++) wrong |= dmc_queue_register(&queue, client, 0, 1, 0, 0);
  expect("65,537 clients", code(dmc_queue_register(&queue, 65536, 0, 1, 0, 0)) == DMC_CLIENTS);
  for (uint32_t token = 0; token < 1048576; token++) wrong |= dmc_queue_add(&queue, 1, token, 1, 0, 1, 0, &tags);
  expect("1,048,577 requests", code(dmc_queue_add(&queue, 1, 0, 1, 0, 1, 0, &tags)) == DMC_QUEUE_FULL);
  wrong |= dmc_queue_counts(&queue, &clients, &requests);
  expect("queue_limits", wrong == DMC_OK && clients == 65536 && requests == 1048576);
  expect("one less", dmc_queue_pull(&queue, 0, &pulled) == DMC_OK && dmc_queue_add(&queue, 1, 0, 1, 0, 1, 0, &tags) == DMC_OK);
  dmc_queue_free(&queue);
}

/* Each allocation of the examples is refused in turn: no reply is another, but where memory is wanting. */
static void run_refused(void) {
  const struct line lines[] = {{CLIENT, 1, 10, 1, 20, 0}, {CLIENT, 2, 10, 1, 0, 0}, {ADD, 1, 7, 1, 1, 0}, {ADD, 2, 8, 1, 1, 0},
                               {PULL, 0, 0, 0, 0, 0}, {PULL, 50, 0, 0, 0, 0}};
  const char *want = "ok; ok; tags 100 50 1000; tags 100 0 1000; grant 2 8 priority; grant 1 7 priority";
  bool all = true;
  uint32_t nth = 0, before;
  do {
    before = refusals;
    refused_after = ++nth;
    all = all && strcmp(replies(ticks, lines, sizeof lines / sizeof *lines), want) == 0;
    refused_after = 0;
  } while (refusals > before);
  expect("each allocation refused in turn", all && refusals >= 6);
  before = refusals;
  refused_after = 1;
  three_stamps(DMC_ALL);
  refused_after = 2;
  three_stamps(DMC_ALL);
  refused_after = 0;
  expect("the allocations of a tracker refused in turn", refusals == before + 2);
}

static void run_codes(void) {
  static const uint32_t codes[] = {
    DMC_OK, DMC_MEMORY, DMC_NONE_HELD, DMC_HELD, DMC_BAD_MOMENT, DMC_BAD_PARAMS, DMC_BAD_RATE, DMC_BAD_CONFIG, DMC_BAD_PHASE,
    DMC_LIMIT, DMC_BAD_COST, DMC_KNOWN, DMC_UNKNOWN, DMC_INEXACT_RESERVATION, DMC_INEXACT_WEIGHT, DMC_INEXACT_LIMIT, DMC_CLIENTS,
    DMC_QUEUE_FULL, DMC_RANGE, DMC_BUSY, DMC_OVER_LIMIT, DMC_NO_SERVER, DMC_TRACK_FULL,
    DMC_NOT_SENT};
  uint32_t count = 0;
  bool all = true;
  for (size_t i = 0; i < sizeof codes / sizeof *codes; i++) all = all && met[codes[i]];
  for (uint32_t n = 0; n < 33; n++) count += met[n];
  expect("each code is met, and no other", all && count == sizeof codes / sizeof *codes);
}

/* A number that a call wrote, or a mark where it wrote none. */
static const uint64_t unwritten = 0x5555555555555555;

/* Whether a rate is what a count over all rates finds: the nearest divisor downwards, or upwards. */
static bool is_nearest(uint32_t hz, uint32_t rate) {
  uint32_t below = rate, above = rate, found = 0;
  while (hz % below != 0) below--;
  if (code(dmc_rate_at_most(hz, rate, &found)) != DMC_OK || found != below) return false;
  if (rate > hz) return code(dmc_rate_at_least(hz, rate, &found)) == DMC_BAD_RATE && found == below;
  while (hz % above != 0) above++;
  return code(dmc_rate_at_least(hz, rate, &found)) == DMC_OK && found == above;
}

static void run_rates(void) {
  static const uint32_t all_hz[] = {1, 2, 97, 1000, 5040, 44100};
  bool nearest = true;
  for (size_t i = 0; i < sizeof all_hz / sizeof *all_hz; i++)
    for (uint32_t rate = 1; rate <= all_hz[i] + 3; rate++) nearest = nearest && is_nearest(all_hz[i], rate);
  expect("nearest rates", nearest);
  bool small = true;
  for (uint32_t rate = 1; rate <= 18; rate++) {
    uint32_t found = 0;
    small = small && code(dmc_rate_at_most(DMC_FINE_HZ, rate, &found)) == DMC_OK && found == rate;
  }
  expect("rates from 1 to 18", small);
  uint32_t found = 7;
  expect("no rate", code(dmc_rate_at_most(1000, 0, &found)) == DMC_BAD_RATE && code(dmc_rate_at_least(1000, 0, &found)) == DMC_BAD_RATE && found == 7);
  expect("no hz", code(dmc_rate_at_most(0, 1, &found)) == DMC_BAD_CONFIG && code(dmc_rate_at_least(1000000001, 1, &found)) == DMC_BAD_CONFIG && found == 7);
}

/* The moment of a clock, or a mark. */
static uint64_t moment_of(uint64_t hz, uint64_t nanos, uint32_t want) {
  uint64_t moment = unwritten;
  return code(dmc_moment_from_nanos(hz, nanos, &moment)) == want ? moment : 0;
}

static uint64_t nanos_of(uint64_t hz, uint64_t moment, uint32_t want) {
  uint64_t nanos = unwritten;
  return code(dmc_nanos_from_moment(hz, moment, &nanos)) == want ? nanos : 0;
}

static uint64_t nanos_of_due(uint64_t hz, uint64_t low, uint64_t high, uint32_t want) {
  uint64_t nanos = unwritten;
  return code(dmc_nanos_from_due(hz, low, high, &nanos)) == want ? nanos : 0;
}

static void run_clocks(void) {
  expect("a clock in milliseconds", moment_of(1000, 1999999, DMC_OK) == 1 && nanos_of(1000, 2, DMC_OK) == 2000000);
  expect("a clock in thirds", moment_of(3, 333333333, DMC_OK) == 0 && nanos_of(3, 1, DMC_OK) == 333333334 && moment_of(3, 333333334, DMC_OK) == 1);
  expect("the last moment", moment_of(1000000000, 1ull << 62, DMC_OK) == 1ull << 62 && moment_of(1000000000, (1ull << 62) + 1, DMC_BAD_MOMENT) == unwritten);
  expect("past the last moment", nanos_of(1000, (1ull << 62) + 1, DMC_BAD_MOMENT) == unwritten && nanos_of_due(1000000000, (1ull << 62) + 1, 0, DMC_OK) == (1ull << 62) + 1);
  expect("nanoseconds past 64 bits", nanos_of(1, 18446744074, DMC_BAD_MOMENT) == unwritten && nanos_of(1, 18446744073, DMC_OK) == 18446744073000000000ull && nanos_of_due(1000, 0, 1, DMC_BAD_MOMENT) == unwritten);
  expect("no clock", moment_of(0, 1, DMC_BAD_CONFIG) == unwritten && nanos_of(1000000001, 1, DMC_BAD_CONFIG) == unwritten && nanos_of_due(0, 1, 0, DMC_BAD_CONFIG) == unwritten);
}

/* A struct that is moved, one of zeros, and a server that is its clients' only one. */
static void run_structs(void) {
  struct dmc_queue queue, old = dmc_queue_none();
  struct dmc_tracker tracker, old_tracker = dmc_tracker_none();
  struct dmc_pulled pulled = {0};
  uint32_t clients = 0, requests = 0;
  memset(&queue, 0, sizeof queue);
  memset(&tracker, 0, sizeof tracker);
  expect("zeros hold nothing", code(dmc_queue_counts(&queue, &clients, &requests)) == DMC_NONE_HELD && code(dmc_tracker_skip(&tracker, 0)) == DMC_NONE_HELD &&
                               code(dmc_queue_cancel(&queue, 1, 1, 2, &requests)) == DMC_NONE_HELD && requests == 0);
  expect("zeros take what is made", code(dmc_queue_new(&queue, &ticks)) == DMC_OK && code(dmc_tracker_new(&tracker, 1, 9, DMC_ALL)) == DMC_OK);
  old = queue;
  queue = dmc_queue_none();
  old_tracker = tracker;
  tracker = dmc_tracker_none();
  expect("what was moved away", code(dmc_queue_counts(&queue, &clients, &requests)) == DMC_NONE_HELD && code(dmc_tracker_skip(&tracker, 0)) == DMC_NONE_HELD);
  expect("what was moved", code(dmc_queue_register(&old, 1, 0, 1, 0, 0)) == DMC_OK && code(dmc_tracker_skip(&old_tracker, 0)) == DMC_OK);
  expect("a single server", code(dmc_queue_add_single(&old, 1, 7, 3, 0)) == DMC_OK && code(dmc_queue_add_single(&old, 2, 7, 1, 0)) == DMC_UNKNOWN && code(dmc_queue_add_single(&old, 1, 8, 1, 0)) == DMC_OK &&
                            code(dmc_queue_pull(&old, 0, &pulled)) == DMC_OK && pulled.kind == DMC_GRANTED && pulled.token == 7 && pulled.cost == 3);
  expect("a single server counts costs", code(dmc_queue_register(&old, 3, 10, 1, 10, 0)) == DMC_OK && code(dmc_queue_pull(&old, 0, &pulled)) == DMC_OK && pulled.token == 8 && pulled.cost == 1 &&
                                             code(dmc_queue_add_single(&old, 3, 9, 4, 0)) == DMC_OK && code(dmc_queue_pull(&old, 0, &pulled)) == DMC_OK && pulled.kind == DMC_FUTURE && pulled.due_low == 400 && pulled.cost == 0);
  expect("a single server gives back costs", code(dmc_queue_add_single(&old, 3, 10, 1, 0)) == DMC_OK && code(dmc_queue_cancel(&old, 3, 9, DMC_OTHERS, &requests)) == DMC_OK && requests == 1 &&
                                                 code(dmc_queue_pull(&old, 0, &pulled)) == DMC_OK && pulled.kind == DMC_FUTURE && pulled.due_low == 100);
  dmc_queue_free(&old);
  dmc_tracker_free(&old_tracker);
}

int main(void) {
  run_structs();
  run_scripts();
  run_newcomers();
  run_configs();
  run_trackers();
  run_shards();
  run_costs();
  run_returned();
  run_rates();
  run_clocks();
  run_limits();
  run_refused();
  run_codes();
  return failed;
}
