/* What the clients of a gate were granted, as Prometheus reads it: its text format 0.0.4. */
#ifndef DMCLOCK_METRICS_H
#define DMCLOCK_METRICS_H

#include "report.h"

void metrics_put(FILE *, const struct report *);

#endif
