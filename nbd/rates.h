/* Rates that an operator typed, and those that a queue of DMC_FINE_HZ has for them. */
#ifndef DMCLOCK_RATES_H
#define DMCLOCK_RATES_H

#include <stdbool.h>
#include <stdint.h>

/* The greatest weight that an operator may give. */
#define MOST_WEIGHT 1000

/* Rates in requests a second. A reservation or a limit of 0 is none; a weight is 1 or more. */
struct rates {
  uint32_t reservation, weight, limit;
};

/* The rates that the queue takes for these: the least reservation at least as great, and the greatest limit and weight at most as
   great. A reservation that is not above the limit is at most the rate that the limit becomes, so a reservation that is the limit
   is a fixed rate. False if one of them is none that the queue has. Weights from 1 to 18 are exact. With shares by the clock, clients
   have shares by their weights while the sum of the weights is less than the requests that the device serves in a second. */
bool rates_round(const struct rates *asked, struct rates *found);

#endif
