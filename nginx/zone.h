/* A zone: a proved dmClock queue before a device, for one thread. A request enters with its client, waits until the queue grants it,
   uses the device, and leaves. The device has at most `depth` requests at once. All times are in nanoseconds since the zone was
   opened, and none is before the last one. */
#ifndef DMCLOCK_ZONE_H
#define DMCLOCK_ZONE_H

#include <stdbool.h>
#include <stddef.h>
#include <stdint.h>

#include "dmclock.h"
#include "rates.h"
#include "times.h"

/* The most clients and the most requests that a queue has. */
#define MOST_CLIENTS 65536
#define MOST_QUEUED (1u << 20)

struct zone_config {
  const char *name;
  uint32_t depth;
  uint32_t most_queued;    /* requests that wait; as many again, and some, may be given up */
  uint32_t most_of_client; /* those of one client */
  uint32_t most_others;    /* clients that are not kept */
  enum dmc_at_limit at_limit;
  uint64_t threshold;      /* with DMC_REJECT how long a request may wait for its client's limit; otherwise 0 */
  enum dmc_shares shares;
  uint64_t timeout;        /* how long a request waits until it expires; NEVER if it does not */
  uint64_t idle, erase;    /* how long without a request until a client is idle, and until it is forgotten */
};

/* A client, from its first `zone_client` on. */
struct client {
  char *name;
  struct rates rates;
  uint32_t id;
  uint32_t most_waiting;   /* how many of its requests wait at most: the config's, if the caller sets no other number */
  bool is_kept;            /* it is never forgotten */
  uint32_t queued;         /* requests in the queue */
  uint32_t given_up;       /* those of them that have left or expired, and are to be cancelled */
  uint32_t earliest, latest; /* the places of its first queued request and of its last one, */
  uint32_t first_waiting;  /* and of the first one that is not given up */
  uint32_t under_way;
  uint64_t requests, grants[2]; /* the grants by dmc_phase */
  uint64_t costs[2];       /* what these cost */
  uint64_t beyond;         /* those of them beyond the limit */
  uint64_t refused, left, expired; /* requests that were not queued; that left while they waited; that waited for too long */
  uint64_t abandoned[2];   /* what grants cost, by dmc_phase, that their trackers do not know of: the caller counts them */
  uint64_t last_request;
  uint64_t limit_tag;      /* the limit tag that its last request was queued with, in ticks of the queue; NEVER if it is more than that */
  struct buckets waited[2]; /* from entering to the grant, by dmc_phase */
  struct client *next, **link; /* the next one, and what points to this one */
  struct client *next_giving_up; /* of those that may have requests that are given up */
  bool is_giving_up;       /* it is one of these */
};

enum request_state { REQUEST_NEW, REQUEST_WAITS, REQUEST_GRANTED, REQUEST_EXPIRED, REQUEST_ENDED };

/* A request, in the caller's memory, which stays where it is until the request has left. Starts as zeros, but for the counting. */
struct request {
  enum dmc_counting counting; /* of the tracker that stamped it; DMC_OTHERS, if it counts its own cost alone */
  struct client *client;
  enum request_state state;
  enum dmc_phase phase;    /* of the grant */
  uint32_t token;
  uint64_t entered;
  struct request *next, **link; /* of those that wait, in the order in which they came; or of those that are woken at once */
};

struct place;

/* Starts as zeros. */
struct zone {
  struct zone_config config;
  struct dmc_queue queue;
  uint64_t now, moment;    /* a time, and its moment: mostly that of the last call */
  uint32_t under_way;      /* requests at the device */
  uint32_t waiting;        /* requests that wait */
  uint32_t queued;         /* requests in the queue; those beyond `waiting` are given up */
  struct client *giving_up, **last_giving_up; /* clients that may have such requests */
  bool is_pressing;        /* they are to be cancelled at once */
  uint64_t next_cancel;    /* when some of these are cancelled next, after many were */
  uint64_t due;            /* when the next request is due; NEVER if that is not known */
  uint64_t next_clean;
  uint64_t stamped, untrusted, malformed; /* requests by their stamps, and requests of names that are no client: the caller counts them */
  uint64_t unknown;
  const char *fault;       /* why nothing is granted any more, once the queue refused what it can't refuse */
  uint32_t next_id;
  uint32_t kept, others;   /* clients that are kept, and those that are not */
  struct client *first, **last_client; /* all clients, in the order in which they came */
  struct client *spare;    /* those that were forgotten */
  void *names;             /* a tree of them */
  struct request *waits, **last_wait;
  struct place *places;    /* the requests in the queue, by their tokens */
  uint32_t tokens, free_token; /* how many places there are, and the first free one */
};

/* Why a request is not queued. */
enum refusal {
  REFUSED_NOT,
  REFUSED_FULL,            /* the queue has its most requests */
  REFUSED_CLIENT_FULL,     /* the client has its most requests in it */
  REFUSED_CLIENTS,         /* the queue has its most clients */
  REFUSED_LIMIT,           /* it would wait for its client's limit longer than the threshold */
  REFUSED_MEMORY,
  REFUSED_FAULT            /* the queue refuses what it can't refuse */
};

/* A zone with no client. False if memory is short. */
bool zone_open(struct zone *, const struct zone_config *);

/* Frees all. No request is in the zone. */
void zone_close(struct zone *);

/* The client of a name; NULL if there is none. */
struct client *zone_find(const struct zone *, const char *name);

/* Makes a client that the zone does not have. NULL if memory is short, or if there are the most clients of its
   kind. */
struct client *zone_client(struct zone *, const char *name, const struct rates *, bool is_kept, uint64_t now);

/* Queues a request with the counts of its stamp. If it is refused, it is as it was. Else it waits or is granted, and so may others
   be: these are in the list `woken`, and so is it, if it is granted. */
enum refusal zone_enter(struct zone *, struct request *, struct client *, struct dmc_stamp, uint64_t now, struct request **woken);

/* A request leaves: the device is done with it, or its caller no longer waits for it. One that was waiting is cancelled before the next
   request is granted, and what it was charged is given back to the client's later ones. Returns those that are granted now. */
struct request *zone_leave(struct zone *, struct request *, uint64_t now);

/* Grants what is due, and ends waits that took too long. Returns the requests that are granted or have expired. */
struct request *zone_turn(struct zone *, uint64_t now);

/* When `zone_turn` has to be called next. */
uint64_t zone_next_turn(const struct zone *);

/* How long until the queue may have room, as far as the queue says it; 0 if it does not. */
uint64_t zone_retry_after(const struct zone *, uint64_t now);

/* How long until a request of such a stamp, which was REFUSED_LIMIT, may be queued, if its client queues no other before; 0 if that is
   not known. It is less if requests of the client were cancelled since its last one: how far that moved its tags back, the queue does
   not say. */
uint64_t zone_limit_after(const struct zone *, const struct client *, struct dmc_stamp, uint64_t now);

/* A text for a refusal. */
const char *refusal_text(enum refusal);

#endif
