/* For tests: a queue that refuses what it never has to. It is linked into the filter before the library, with -Wl,--wrap. A request of
   cost 7 is refused, and from the first one of cost 9 on nothing is granted. */
#include "dmclock.h"

#define REFUSED 7
#define LAST 9

uint32_t __real_dmc_queue_add(struct dmc_queue *queue, uint32_t client, uint32_t token, uint32_t delta, uint32_t rho, uint32_t cost,
                              uint64_t at, struct dmc_tags *tags);
uint32_t __real_dmc_queue_pull(struct dmc_queue *queue, uint64_t at, struct dmc_pulled *pulled);

static bool is_broken;

uint32_t __wrap_dmc_queue_add(struct dmc_queue *queue, uint32_t client, uint32_t token, uint32_t delta, uint32_t rho, uint32_t cost,
                              uint64_t at, struct dmc_tags *tags)
{
  is_broken = is_broken || cost == LAST;
  return cost == REFUSED ? DMC_RANGE : __real_dmc_queue_add(queue, client, token, delta, rho, cost, at, tags);
}

uint32_t __wrap_dmc_queue_pull(struct dmc_queue *queue, uint64_t at, struct dmc_pulled *pulled)
{
  return is_broken ? DMC_RANGE : __real_dmc_queue_pull(queue, at, pulled);
}
