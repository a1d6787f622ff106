#include "rates.h"

#include "dmclock.h"

bool rates_round(const struct rates *asked, struct rates *found)
{
  struct rates rates = {0, 0, 0};
  if (asked->reservation && dmc_rate_at_least(DMC_FINE_HZ, asked->reservation, &rates.reservation) != DMC_OK)
    return false;
  if (asked->limit && dmc_rate_at_most(DMC_FINE_HZ, asked->limit, &rates.limit) != DMC_OK)
    return false;
  if (dmc_rate_at_most(DMC_FINE_HZ, asked->weight, &rates.weight) != DMC_OK)
    return false;
  if (asked->limit && asked->reservation <= asked->limit && rates.limit < rates.reservation)
    rates.reservation = rates.limit;
  *found = rates;
  return true;
}
