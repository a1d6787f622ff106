/* What zones and trackers did so far, as text. */
#ifndef DMCLOCK_STATUS_H
#define DMCLOCK_STATUS_H

#include <stdio.h>

#include "tenants.h"
#include "zone.h"

/* All zones and trackers of a process. */
struct status {
  const struct zone *const *zones;
  size_t zone_count;
  const struct tenants *const *trackers;
  size_t tracker_count;
};

/* A line of JSON for each zone, client, tracker, server of a tracker, and tenant. */
void status_put_json(FILE *, const struct status *);

/* Prometheus's text format. */
void status_put_prometheus(FILE *, const struct status *);

#endif
