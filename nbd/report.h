/* What a gate did so far, as a copy of one time, and files that are written as a whole. */
#ifndef DMCLOCK_REPORT_H
#define DMCLOCK_REPORT_H

#include <stdio.h>

#include "gate.h"

/* A client. */
struct row {
  char *name;
  struct rates rates;
  uint64_t requests, grants[2], costs[2], bytes[2], beyond, cancelled, refused, queue_faults, errors;
  uint32_t queued;
  struct times waited;
  struct buckets buckets[2];
};

struct report {
  struct row *rows;
  size_t count, room;
  double time;    /* seconds since 1970 */
  double seconds; /* since the gate was opened */
  uint32_t depth, under_way;
};

/* Copies what the clients were granted. Nothing is formatted while requests wait for the gate's lock. False if memory is short; the
   report is freed in any case. */
bool report_take(struct gate *, struct report *);

void report_free(struct report *);

/* What `put` writes of the report, in memory that the caller frees. NULL if memory is short. */
char *report_text(const struct report *, void (*put)(FILE *, const struct report *), size_t *length);

/* Why this file could not be written now, by the same way; NULL if it could. Nothing of it is left. */
const char *report_refusal(const char *path);

/* Writes what `put` writes of the report to a file, by way of another one beside it: who reads the file sees a whole one. Returns 0,
   or an errno. */
int report_write(const struct report *, void (*put)(FILE *, const struct report *), const char *path);

#endif
