/* Stamps as HTTP carries them: the counts of a request and its cost in three of its headers, the form of counting in a fourth if it is
   not the usual one, and what became of the request in one of the response. A second one has what other requests cost that were granted
   and have no response. */
#ifndef DMCLOCK_STAMP_H
#define DMCLOCK_STAMP_H

#include <stdbool.h>
#include <stddef.h>

#include "dmclock.h"

#define STAMP_HEADERS "dmclock-" /* how each of them begins, in lower case */
#define DELTA_HEADER "dmclock-delta"
#define RHO_HEADER "dmclock-rho"
#define COST_HEADER "dmclock-cost"
#define COUNTING_HEADER "dmclock-counting" /* of a tracker that counts in the form DMC_ALL */
#define COUNTING_ALL "all"
#define PHASE_HEADER "dmclock-phase"
#define ABANDONED_HEADER "dmclock-abandoned"

/* What a server's response says of the request. */
enum outcome {
  OUTCOME_RESERVATION, /* it was granted, in this phase */
  OUTCOME_PRIORITY,
  OUTCOME_RETURNED,    /* it was not queued: its stamp has yet to reach the queue */
  OUTCOME_EXPIRED      /* the queue has its stamp, and it was not served */
};

/* The word of an outcome, and the outcome of a word, which a server may have made up: one that is no other's means that the queue
   has the stamp. A response without the header, of NULL, is of a server that did not queue the request. */
const char *outcome_word(enum outcome);
enum outcome outcome_of(const char *word, size_t length);

/* Reads a count of a stamp: 1 to 10 decimal digits, at most 2^32-1. */
bool stamp_read_count(const char *text, size_t length, uint32_t *count);

/* What abandoned requests cost, by dmc_phase: two counts with a blank between them. */
#define ABANDONED_SIZE sizeof "4294967295 4294967295"
void stamp_write_abandoned(char text[ABANDONED_SIZE], const uint32_t costs[2]);
bool stamp_read_abandoned(const char *text, size_t length, uint32_t costs[2]);

#endif
