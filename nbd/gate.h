/* The gate: a proved dmClock queue before a device, for any number of threads. A thread enters with a client's request, waits
   until the queue grants it, uses the device, and leaves. The device has at most `depth` requests at once. */
#ifndef DMCLOCK_GATE_H
#define DMCLOCK_GATE_H

#include <pthread.h>
#include <stdbool.h>
#include <stdint.h>

#include "dmclock.h"
#include "rates.h"
#include "times.h"

struct gate_config {
  uint32_t depth;
  uint32_t unit;           /* bytes for which a request costs 1, so that a longer one costs more; 0 if each costs 1 */
  enum dmc_at_limit at_limit;
  uint64_t threshold_millis; /* under DMC_REJECT, how long a request may wait for its client's limit */
  enum dmc_shares shares;
  uint64_t idle_seconds, erase_seconds; /* how long without a request until a client is idle, and until it is forgotten */
  uint32_t most_others;    /* the most clients that are not kept */
  uint64_t slice;          /* nanoseconds after which those who wait for requests are asked whether they are wanted, again and again */
};

struct slot;
struct place;

/* Who waits for requests: a connection, of an nbdkit filter. It starts as zeros but for the question, and stays where it is while a
   request of it is in the gate. The other fields are the gate's own. */
struct waiter {
  bool (*is_wanted)(struct waiter *); /* whether its requests are wanted: asked in the thread of one of them, with no lock held */
  bool is_asked;           /* it has yet to say it */
  bool has_gone;           /* it has said no */
};

/* A client of the gate, from its first `gate_client` on. Its fields are read under the gate's lock. */
struct client {
  char *name;
  struct rates rates;      /* as the queue has them */
  struct rates wanted;     /* other rates, which the queue takes as soon as no request of the client waits in it */
  bool is_changing;        /* whether that is still to come; until then requests of the client wait before they are queued */
  uint32_t id;
  bool is_kept;            /* it has a place in the queue whatever other names come, and is never forgotten */
  uint32_t users;          /* who holds it: connections, of an nbdkit filter */
  uint32_t queued;         /* requests in the queue, those that nobody waits for any more among them */
  uint32_t latest;         /* of its requests that are queued, the place of the one that came last */
  uint64_t requests, grants[2]; /* the grants by dmc_phase */
  uint64_t costs[2], bytes[2]; /* what these cost, and how many bytes they were for, by dmc_phase */
  uint64_t beyond;         /* those of them beyond the limit */
  uint64_t cancelled;      /* requests whose waiter went while they were queued */
  uint64_t refused;        /* requests that came over the limit, and are not among `requests` */
  uint64_t queue_faults;   /* requests that the queue refused though it had room and they were not over the limit */
  uint64_t errors;         /* granted requests that the device ended with an error */
  uint64_t last_request;   /* nanoseconds of the gate's clock */
  struct times waited;     /* from entering to the grant */
  struct buckets buckets[2]; /* the same, by dmc_phase */
  struct client *next, **link; /* the next one, and what points to this one */
};

/* A gate. Its fields are the gate's own. */
struct gate {
  pthread_mutex_t lock;
  pthread_cond_t timer_wakes;
  pthread_cond_t stops;    /* the gate does */
  pthread_t timer;
  bool has_timer;
  struct gate_config config;
  struct dmc_queue queue;
  uint64_t start;          /* of the gate's clock, in nanoseconds of CLOCK_MONOTONIC */
  uint32_t under_way;      /* requests at the device */
  uint64_t due;            /* when the next request is due; UINT64_MAX if that is not known */
  uint64_t timer_until;    /* until when the timer waits */
  uint64_t next_clean;
  uint64_t next_look;      /* when those who wait are looked at; UINT64_MAX if nobody did at the last one */
  int fault;               /* an errno, once no request is granted any more */
  const char *reason;      /* why, if the queue refused what it can't refuse */
  uint32_t refusal;        /* the code of the first request that counts as a fault of the queue; DMC_OK before */
  uint32_t next_id;
  uint32_t others;         /* the clients that are not kept */
  struct client *first, **last; /* all clients, in the order in which they came */
  void *names;             /* a tree of them */
  uint32_t queued;         /* requests in the queue */
  uint32_t given_up;       /* those of them that nobody waits for any more */
  struct slot *held;       /* requests that are not in it, since their clients' rates are changing */
  struct place *places;    /* where the requests in the queue are waited for, by their tokens */
  uint32_t tokens, free_token; /* how many places there are, and the first free one */
};

/* A gate with no client. Returns 0, or an errno. The gate is zeroed before. */
int gate_open(struct gate *, const struct gate_config *);

/* Starts the gate's timer: not before the process has forked for the last time. Returns 0, or an errno. */
int gate_start(struct gate *);

/* From now on each request ends with this errno, those that wait too. */
void gate_stop(struct gate *, int fault);

/* Waits until the gate is stopped, for so long at most. Returns whether it is. */
bool gate_await_stop(struct gate *, uint64_t nanos);

/* Ends the timer and frees all. Nobody is in the gate. */
void gate_close(struct gate *);

/* The client of this name, for one more user. If there is none, one is made with these rates, as `rates_round` finds them: one that
   is kept is registered at once and never forgotten, any other at its first request. Returns 0; else ENOENT if there is none and
   rates is NULL, EBUSY if there are the most clients of its kind, or another errno. */
int gate_client(struct gate *, const char *name, const struct rates *, bool is_kept, struct client **);

/* Gives the client of this name other rates, and makes it one that is kept, or no longer: then it is forgotten once nobody uses it.
   If there is none, one that is kept is made. Requests that are queued keep their places; a reservation is given or taken once they
   are granted. Returns 0; else EBUSY if there are the most clients, or another errno. */
int gate_change(struct gate *, const char *name, const struct rates *, bool is_kept);

/* Gives all clients that are not kept these rates. */
void gate_change_others(struct gate *, const struct rates *);

/* From now on the device has this many requests at once, and at most this many clients are not kept. */
void gate_resize(struct gate *, uint32_t depth, uint32_t most_others);

/* A user of the client less. One that is not kept, and has no user and never had a request, is forgotten. */
void gate_release(struct gate *, struct client *);

/* Waits for a request of the client, for so many bytes, until it is granted. While requests of a waiter are queued, the thread of one of
   them asks it at the end of each slice whether they are wanted, and each asks at its grant if it had to wait. If they are not, their
   waits end; they leave the queue a slice later, and what was charged for them is given back. Returns 0; else ECANCELED if the waiter has
   gone, ENOMEM if an allocation failed, the queue is full or the request is over the client's limit, EIO if the queue refuses it for
   another reason, or the errno that the gate was stopped with. After 0, and only then, `gate_leave` or `gate_leave_failed` must follow. */
int gate_enter(struct gate *, struct client *, uint32_t bytes, struct waiter *);

/* The device is done with a request. */
void gate_leave(struct gate *);

/* The device has ended a request of this client with an error. */
void gate_leave_failed(struct gate *, struct client *);

/* Nanoseconds since the gate was opened. */
uint64_t gate_now(const struct gate *);

#endif
