/* The proved dmClock queue, service tracker and shard tracker for back ends in C and C++. docs/C.md has the rest.
 *
 * A struct dmc_queue starts as DMC_QUEUE_NONE, a struct dmc_tracker as DMC_TRACKER_NONE and a struct dmc_shards as
 * DMC_SHARDS_NONE, which a struct of zeros is too (of static storage, of calloc, of memset). Its fields are not written by the
 * caller. It may be moved between calls: copied once, and the old one set to its NONE (old = dmc_queue_none()). It is copied in
 * no other way.
 * Pointers are valid, none is NULL, and they do not overlap. One call at a time on one struct; none from a signal handler. A
 * struct may move from thread to thread between calls, ordered by a lock or by a thread's start or join.
 *
 * Each call but the frees returns a code. The order of codes: DMC_NONE_HELD (a `new`: DMC_HELD), then the values in the
 * order moment, params, cost, rate (a `respond`: phase, cost; of two stamps the first before the second), then the call's
 * refusals in the order that stands at it, and DMC_MEMORY last. What is not DMC_OK leaves what is held as it was and
 * writes nothing to what the caller points to. A call on what was freed is a call where none is held.
 *
 * Moments and ages are in ticks, hz ticks a second. Moments are 0 to 2^62. A moment that goes back counts as the last one.
 */
#ifndef DMCLOCK_H
#define DMCLOCK_H

#include <stdbool.h>
#include <stdint.h>

#ifdef __cplusplus
extern "C" {
#endif

/* The version of this header, 0.2.0: major * 10000 + minor * 100 + patch. dmc_version() returns that of the library. */
#define DMC_VERSION 200
uint32_t dmc_version(void);

/* What is held: set by `new` and ended by `free`. */
struct dmc_queue   { void *at; uint64_t held; };
struct dmc_tracker { void *at; uint64_t held; };
struct dmc_shards  { void *at; uint64_t held; };
#define DMC_QUEUE_NONE   { 0, 0 }
#define DMC_TRACKER_NONE { 0, 0 }
#define DMC_SHARDS_NONE  { 0, 0 }

/* The same as values: DMC_QUEUE_NONE is an initializer, which C does not assign. */
static inline struct dmc_queue dmc_queue_none(void) {
  struct dmc_queue none = DMC_QUEUE_NONE;
  return none;
}
static inline struct dmc_tracker dmc_tracker_none(void) {
  struct dmc_tracker none = DMC_TRACKER_NONE;
  return none;
}
static inline struct dmc_shards dmc_shards_none(void) {
  struct dmc_shards none = DMC_SHARDS_NONE;
  return none;
}

enum dmc_code {
  DMC_OK = 0,
  DMC_MEMORY = 1,     /* an allocation failed */
  DMC_NONE_HELD = 2,  /* no queue, tracker or shard tracker is held */
  DMC_HELD = 3,       /* one is held already */

  DMC_BAD_MOMENT = 10, /* a moment past 2^62 */
  DMC_BAD_PARAMS = 11, /* a rho past its delta */
  DMC_BAD_RATE = 12,   /* a weight of 0 */
  DMC_BAD_CONFIG = 13, /* a setting out of its limits, or a number that names none */
  DMC_BAD_PHASE = 14,  /* a number that names no phase */
  DMC_LIMIT = 15,      /* a tracker's servers, its shards or its `most` out of their limits */
  DMC_BAD_COST = 16,   /* a cost of 0 */

  DMC_KNOWN = 20,   /* the client is registered already */
  DMC_UNKNOWN = 21, /* the client is not registered */
  DMC_INEXACT_RESERVATION = 22, /* the spacing hz/rate is no value of the tags */
  DMC_INEXACT_WEIGHT = 23,
  DMC_INEXACT_LIMIT = 24,
  DMC_CLIENTS = 25,    /* 65,536 clients are registered */
  DMC_QUEUE_FULL = 26, /* 2^20 requests are queued */
  DMC_RANGE = 27,      /* a sum that the call needs is no value of the tags */
  DMC_BUSY = 28,       /* an update gives or takes a reservation while the client has a queued request */
  DMC_OVER_LIMIT = 29, /* with DMC_REJECT: the request would wait for its client's limit longer than the threshold */

  DMC_NO_SERVER = 30,  /* the tracker has no such server, or no such shard */
  DMC_TRACK_FULL = 31, /* a count of the tracker would pass its `most`, or a stamp's delta 2^32-1 */
  DMC_NOT_SENT = 32    /* more is given back than was sent to the shard */
};

enum dmc_tag_kind { DMC_TICK = 0, DMC_RATIO = 1 };  /* whole ticks: rates divide hz; fractions: any rate */
/* at the limit a pull returns when one is due; or grants beyond it; or an add is refused that would wait too long */
enum dmc_at_limit { DMC_WAIT = 0, DMC_ALLOW = 1, DMC_REJECT = 2 };
/* shares are compared by the clock, as mClock does; or in the time of the service, in which what a client got before others came is
   neither a credit nor a debt */
enum dmc_shares   { DMC_CLOCK = 0, DMC_VIRTUAL = 1 };
enum dmc_counting { DMC_ALL = 0, DMC_OTHERS = 1 };  /* a stamp counts the completions at all servers, or at the others */
enum dmc_phase    { DMC_RESERVATION = 0, DMC_PRIORITY = 1 };
enum dmc_kind     { DMC_GRANTED = 0, DMC_FUTURE = 1, DMC_NOTHING = 2 };

struct dmc_tag    { int64_t high; uint64_t low; uint64_t denom; };      /* (high * 2^64 + low) / denom, in ticks */
struct dmc_tags   { bool reserved; struct dmc_tag r, l, p; };           /* r is 0/1 where reserved is false */
/* DMC_GRANTED: client, token, phase, cost, beyond; DMC_FUTURE: one is due at due_high * 2^64 + due_low, and none before;
   what the kind does not speak of is 0 */
struct dmc_pulled { uint32_t kind, client, token, phase, cost; bool beyond; uint64_t due_low, due_high; };
/* the counts of a stamp, and the cost of its request */
struct dmc_stamp  { uint32_t delta, rho, cost; };
/* of a server: what its next stamp would count, and what was sent to it; of all: completions, and those by reservation; all in
   units of cost */
struct dmc_track  { uint64_t pending_delta, pending_rho, sent_delta, sent_rho, completions, reservation; };

/* The configuration of a queue. It starts as DMC_CONFIG(hz), and the caller changes what is to be otherwise. */
struct dmc_config {
  uint64_t hz;        /* ticks a second: 1 to 1,000,000,000 */
  uint64_t idle_age;  /* after this many ticks without a request dmc_queue_clean marks a client idle: 1 to DMC_MAX_AGE */
  uint64_t erase_age; /* and erases it: idle_age to DMC_MAX_AGE */
  uint64_t threshold; /* with DMC_REJECT how long a request may wait for its limit, in ticks: 0 to DMC_MAX_AGE; otherwise 0 */
  uint32_t tag_kind;  /* enum dmc_tag_kind */
  uint32_t at_limit;  /* enum dmc_at_limit */
  uint32_t shares;    /* enum dmc_shares */
};

/* The greatest age, 2^62 ticks, which no client reaches. */
#define DMC_MAX_AGE (UINT64_C(1) << 62)

/* The defaults: no client becomes idle or is erased, tags are whole ticks, a client at its limit waits, shares are by the clock. */
#define DMC_CONFIG(hz) { (hz), DMC_MAX_AGE, DMC_MAX_AGE, 0, DMC_TICK, DMC_WAIT, DMC_CLOCK }

/* The same as a value: DMC_CONFIG is an initializer, which C does not assign. */
static inline struct dmc_config dmc_config_of(uint64_t hz) {
  struct dmc_config config = DMC_CONFIG(hz);
  return config;
}

/* Makes a queue of no clients. DMC_HELD, DMC_BAD_CONFIG, DMC_MEMORY. */
uint32_t dmc_queue_new(struct dmc_queue *, const struct dmc_config *);

/* Ends what is held; nothing where none is. */
void dmc_queue_free(struct dmc_queue *);

/* Registers a client, rates in units of cost a second; 0 is no reservation and no limit. DMC_NONE_HELD, DMC_BAD_MOMENT,
   DMC_BAD_RATE, DMC_KNOWN, DMC_INEXACT_RESERVATION, DMC_INEXACT_WEIGHT, DMC_INEXACT_LIMIT, DMC_CLIENTS, DMC_MEMORY. */
uint32_t dmc_queue_register(struct dmc_queue *, uint32_t client, uint32_t reservation, uint32_t weight, uint32_t limit,
                            uint64_t at);

/* Replaces a client's rates. DMC_NONE_HELD, DMC_BAD_MOMENT, DMC_BAD_RATE, DMC_UNKNOWN, DMC_INEXACT_RESERVATION,
   DMC_INEXACT_WEIGHT, DMC_INEXACT_LIMIT, DMC_BUSY. */
uint32_t dmc_queue_update(struct dmc_queue *, uint32_t client, uint32_t reservation, uint32_t weight, uint32_t limit,
                          uint64_t at);

/* Queues a request with the counts of its stamp and its cost, and writes its tags. The cost is how much of its client's rates the
   request takes, in units of the caller's choice: 1 if only requests are counted, else blocks of 4 KiB, say, and then rates and
   weights are in these units a second. DMC_NONE_HELD, DMC_BAD_MOMENT, DMC_BAD_PARAMS, DMC_BAD_COST, DMC_UNKNOWN, DMC_QUEUE_FULL,
   DMC_RANGE, DMC_OVER_LIMIT, DMC_MEMORY. */
uint32_t dmc_queue_add(struct dmc_queue *, uint32_t client, uint32_t token, uint32_t delta, uint32_t rho, uint32_t cost,
                       uint64_t at, struct dmc_tags *);

/* Queues a request at a server that is its clients' only one: each request counts its own cost, and no tracker is needed. The same
   refusals. */
static inline uint32_t dmc_queue_add_single(struct dmc_queue *queue, uint32_t client, uint32_t token, uint32_t cost, uint64_t at) {
  struct dmc_tags tags;
  return dmc_queue_add(queue, client, token, cost, cost, cost, at, &tags);
}

/* Grants the next request, or returns when one is due. DMC_NONE_HELD, DMC_BAD_MOMENT, DMC_RANGE. */
uint32_t dmc_queue_pull(struct dmc_queue *, uint64_t at, struct dmc_pulled *);

/* Takes out a client's queued requests, and writes how many. DMC_NONE_HELD, DMC_UNKNOWN. */
uint32_t dmc_queue_remove(struct dmc_queue *, uint32_t client, uint32_t *removed);

/* Takes back a client's queued requests with a token, wherever they are in the queue, when they are given up, and writes how many:
   none if they were granted before. `counting` is that of the tracker that stamped them, and DMC_OTHERS after
   dmc_queue_add_single. With DMC_OTHERS a stamp counts its own request, so what they were charged is given back to the client's
   later requests: after it pull again, since one may be due earlier. With DMC_ALL they were not charged yet. DMC_NONE_HELD,
   DMC_BAD_CONFIG (a counting that is none), DMC_UNKNOWN. */
uint32_t dmc_queue_cancel(struct dmc_queue *, uint32_t client, uint32_t token, uint32_t counting, uint32_t *removed);

/* Marks clients idle, erases old ones, and writes how many became idle and how many were erased. DMC_NONE_HELD,
   DMC_BAD_MOMENT. */
uint32_t dmc_queue_clean(struct dmc_queue *, uint64_t at, uint32_t *idled, uint32_t *erased);

/* Writes how many clients are registered and how many requests are queued. DMC_NONE_HELD. */
uint32_t dmc_queue_counts(struct dmc_queue *, uint32_t *clients, uint32_t *requests);

/* A tracker of servers 0, 1, .. (1 to 64 of them), which counts completions of at most `most` units of cost (1 to 2^62). DMC_HELD,
   DMC_BAD_CONFIG, DMC_LIMIT, DMC_MEMORY. */
uint32_t dmc_tracker_new(struct dmc_tracker *, uint32_t servers, uint64_t most, uint32_t counting);

/* Ends what is held; nothing where none is. */
void dmc_tracker_free(struct dmc_tracker *);

/* Stamps a request of a cost to a server, and writes its counts and the cost. DMC_NONE_HELD, DMC_BAD_COST, DMC_NO_SERVER,
   DMC_TRACK_FULL. */
uint32_t dmc_tracker_stamp(struct dmc_tracker *, uint32_t server, uint32_t cost, struct dmc_stamp *);

/* Adds the counts of a stamp that no server took, since its request was refused or lost and is given up, to a later stamp to the
   same server: the client's completions stay counted, and the request that was given up costs it nothing. The later stamp keeps
   its own cost; `counting` is that of the tracker. DMC_BAD_CONFIG (a counting that is none), DMC_BAD_PARAMS, DMC_BAD_COST,
   DMC_TRACK_FULL. */
uint32_t dmc_stamp_with_returned(struct dmc_stamp *, const struct dmc_stamp *returned, uint32_t counting);

/* Skips what is pending at a server: the next stamp to it counts only later completions. It sends nothing. Where a stamp is
   DMC_TRACK_FULL for its delta, this ends that. DMC_NONE_HELD, DMC_NO_SERVER. */
uint32_t dmc_tracker_skip(struct dmc_tracker *, uint32_t server);

/* Counts a completion: the response to a request of a cost that a server granted in a phase. DMC_NONE_HELD, DMC_BAD_PHASE,
   DMC_BAD_COST, DMC_NO_SERVER, DMC_TRACK_FULL. */
uint32_t dmc_tracker_respond(struct dmc_tracker *, uint32_t server, uint32_t phase, uint32_t cost);

/* Writes what the tracker knows of a server. DMC_NONE_HELD, DMC_NO_SERVER. */
uint32_t dmc_tracker_status(struct dmc_tracker *, uint32_t server, struct dmc_track *);

/* ---- shards
   A server of many cores may have a queue for each of its shards, each with a lock of its own. To the rules a shard is a server, so
   each queue has the client's full rates, and the stamp that a request brings to the server becomes that of its shard:

     take the client's lock; next = stamp; dmc_shards_next(&shards, shard, &next)
       take the shard's lock; dmc_queue_add(&queue, client, token, next.delta, next.rho, next.cost, at, &tags); release it
       if the add was accepted: dmc_shards_arrive(&shards, shard, &stamp)
     release the client's lock

   So a client's requests reach a shard in the order of their stamps, and one that is refused leaves no trace: its client keeps its
   stamp. A client's lock is taken before a shard's, never after it.
   A client whose requests bring no stamps, since its tracker is at this server, needs none of this: its dmc_tracker stamps for the
   shards, as its servers. */

/* A client's tracker for shards 0, 1, .. (1 to 64 of them) of one server, to which deltas of `most` in all can come (1 to 2^62).
   DMC_HELD, DMC_LIMIT, DMC_MEMORY. */
uint32_t dmc_shards_new(struct dmc_shards *, uint32_t shards, uint64_t most);

/* Ends what is held; nothing if none is. */
void dmc_shards_free(struct dmc_shards *);

/* Makes of the stamp that a request brought to the server the one for the shard that it goes to: with all that came in
   since the last stamp for this shard. The cost stays. DMC_NONE_HELD, DMC_BAD_PARAMS, DMC_BAD_COST, DMC_NO_SERVER,
   DMC_TRACK_FULL. */
uint32_t dmc_shards_arrive(struct dmc_shards *, uint32_t shard, struct dmc_stamp *);

/* Makes of the stamp that a request brought the one that dmc_shards_arrive would make, and changes nothing else. DMC_NONE_HELD,
   DMC_BAD_PARAMS, DMC_BAD_COST, DMC_NO_SERVER, DMC_TRACK_FULL. */
uint32_t dmc_shards_next(struct dmc_shards *, uint32_t shard, struct dmc_stamp *);

/* The shard's queue refused the request of this stamp, which dmc_shards_arrive made: the next stamp for the shard carries its counts
   too. DMC_NONE_HELD, DMC_BAD_PARAMS, DMC_BAD_COST, DMC_NO_SERVER, DMC_NOT_SENT. */
uint32_t dmc_shards_give_back(struct dmc_shards *, uint32_t shard, const struct dmc_stamp *);

/* Skips what is pending at a shard: the next stamp for it counts only what comes later. It sends nothing. If an arrival is
   DMC_TRACK_FULL for its delta, since the client sent nothing to the shard for more than 2^32-1, this ends that. DMC_NONE_HELD,
   DMC_NO_SERVER. */
uint32_t dmc_shards_skip(struct dmc_shards *, uint32_t shard);

/* Writes what the shard tracker knows of a shard; its completions are what came in. DMC_NONE_HELD, DMC_NO_SERVER. */
uint32_t dmc_shards_status(struct dmc_shards *, uint32_t shard, struct dmc_track *);

/* ---- rates and clocks
   These calls hold nothing. hz is 1 to 1,000,000,000, else DMC_BAD_CONFIG; what is not DMC_OK writes nothing. */

/* Ticks a second for rates that an operator typed: 1,344 rates divide it, every one from 1 to 18 among them, and from 1,000 to
   1,000,000 the next one is at most 2.2% further. A tick is 1.36 ns. */
#define DMC_FINE_HZ 735134400

/* The greatest rate at most this one that divides hz, as tick tags need: for a limit, and for a weight. With DMC_CLOCK clients have
   shares by their weights while the sum of the weights is less than the units of cost that are granted in a second, so weights are
   small numbers. DMC_BAD_CONFIG, DMC_BAD_RATE (a rate of 0). */
uint32_t dmc_rate_at_most(uint64_t hz, uint32_t rate, uint32_t *found);

/* The least rate at least this one that divides hz: for a reservation. DMC_BAD_CONFIG, DMC_BAD_RATE (a rate of 0, or past hz). */
uint32_t dmc_rate_at_least(uint64_t hz, uint32_t rate, uint32_t *found);

/* The moment of a clock that has counted nanos nanoseconds: the whole ticks that have passed. DMC_BAD_CONFIG, DMC_BAD_MOMENT
   (past 2^62). */
uint32_t dmc_moment_from_nanos(uint64_t hz, uint64_t nanos, uint64_t *moment);

/* The least nanoseconds after which a moment has come: who sleeps until then finds the request due. DMC_BAD_CONFIG,
   DMC_BAD_MOMENT (a moment past 2^62, or nanoseconds past 2^64-1). */
uint32_t dmc_nanos_from_moment(uint64_t hz, uint64_t moment, uint64_t *nanos);

/* The same of what a pull says of DMC_FUTURE, which may be past 2^62. DMC_BAD_CONFIG, DMC_BAD_MOMENT (nanoseconds past 2^64-1). */
uint32_t dmc_nanos_from_due(uint64_t hz, uint64_t due_low, uint64_t due_high, uint64_t *nanos);

/* A text for each code. */
static inline const char *dmc_text(uint32_t code) {
  switch (code) {
    case DMC_OK: return "ok";
    case DMC_MEMORY: return "out of memory";
    case DMC_NONE_HELD: return "none held";
    case DMC_HELD: return "held already";
    case DMC_BAD_MOMENT: return "bad moment";
    case DMC_BAD_PARAMS: return "bad params";
    case DMC_BAD_RATE: return "bad rate";
    case DMC_BAD_CONFIG: return "bad config";
    case DMC_BAD_PHASE: return "bad phase";
    case DMC_LIMIT: return "limit";
    case DMC_BAD_COST: return "bad cost";
    case DMC_KNOWN: return "known";
    case DMC_UNKNOWN: return "unknown";
    case DMC_INEXACT_RESERVATION: return "inexact reservation";
    case DMC_INEXACT_WEIGHT: return "inexact weight";
    case DMC_INEXACT_LIMIT: return "inexact limit";
    case DMC_CLIENTS: return "clients";
    case DMC_QUEUE_FULL: return "queue full";
    case DMC_RANGE: return "range";
    case DMC_BUSY: return "busy";
    case DMC_OVER_LIMIT: return "over limit";
    case DMC_NO_SERVER: return "no server";
    case DMC_TRACK_FULL: return "tracker full";
    case DMC_NOT_SENT: return "not sent";
    default: return "no code";
  }
}

#ifdef __cplusplus
}
#endif

#endif
