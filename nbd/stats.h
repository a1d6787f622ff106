/* What the clients of a gate were granted, as JSON: a line a client. */
#ifndef DMCLOCK_STATS_H
#define DMCLOCK_STATS_H

#include "report.h"

void stats_put(FILE *, const struct report *);

#endif
