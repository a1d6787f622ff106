/* The tenants of a front: each has a tracker, which stamps its requests to the servers and counts its completions there. One thread
   uses them. */
#ifndef DMCLOCK_TENANTS_H
#define DMCLOCK_TENANTS_H

#include <stdbool.h>
#include <stddef.h>
#include <stdint.h>

#include "dmclock.h"
#include "stamp.h"

/* The most servers that a tracker has. */
#define MOST_SERVERS 64

/* What became of the requests to one server, of all tenants. */
struct server_counts {
  uint64_t stamps, completions[2]; /* by dmc_phase */
  uint64_t abandoned;         /* what requests cost that the server granted, and that have no response */
  uint64_t returned, expired; /* the others: their stamps are for the next request; or the queue has them, and no response says more */
};

/* A tenant, from its first request on. */
struct tenant {
  char *name;
  uint32_t under_way;         /* requests of it that have no outcome yet */
  struct dmc_tracker tracker;
  struct tenant *earlier, *later; /* of those without a request under way, by when their last one ended; or of all others */
  struct dmc_stamp *returned; /* for each server, the stamps that did not reach its queue, as one */
  uint64_t has_returned;      /* a bit for each server that has one */
};

/* Tenants in the order of their last requests. */
struct tenant_list {
  struct tenant *first, *last;
};

/* Starts as zeros; the caller fills in the name, the servers, `most` and the counting before the first request. */
struct tenants {
  const char *name;
  const char *server_names[MOST_SERVERS];
  uint32_t servers, most;     /* how many servers there are, and how many tenants there may be */
  enum dmc_counting counting;
  uint32_t count;
  void *names;                /* a tree of them */
  struct tenant_list quiet, busy; /* without a request under way, and with one */
  uint64_t forgotten;         /* tenants that others took the place of */
  uint64_t lost;              /* stamps whose counts would not fit the next one */
  uint64_t unstamped;         /* requests that were sent without a stamp: the caller counts them */
  struct server_counts counts[MOST_SERVERS];
};

/* A request to one server, which has a stamp. */
struct try {
  struct tenant *tenant;
  uint32_t server;
  struct dmc_stamp stamp;
};

/* Frees all. No request is under way. */
void tenants_close(struct tenants *);

/* Stamps a request of a cost, of the tenant of this name, to a server, with what was returned of earlier ones. A tenant more takes the place of the
   one that was quiet for the longest. False if there are the most tenants, each with a request under way, or memory is short. After
   true, and only then, `tenants_end` must follow. */
bool tenants_begin(struct tenants *, const char *name, uint32_t server, uint32_t cost, struct try *);

/* The server says what it granted to requests of the tenant that have no response: what they cost, by dmc_phase. */
void tenants_add(struct tenants *, const struct try *, const uint32_t costs[2]);

/* The request has an outcome. */
void tenants_end(struct tenants *, const struct try *, enum outcome);

#endif
