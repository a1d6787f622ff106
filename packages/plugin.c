/* A plugin: a shared object that has a queue of its own. */
#include "dmclock.h"

/* The token that a queue grants, or 0. */
uint32_t plugin_grants(uint32_t token);

uint32_t plugin_grants(uint32_t token) {
  const struct dmc_config config = DMC_CONFIG(1000);
  struct dmc_queue queue = DMC_QUEUE_NONE;
  struct dmc_tags tags;
  struct dmc_pulled pulled = {0};
  uint32_t code = dmc_queue_new(&queue, &config);
  if (code == DMC_OK) code = dmc_queue_register(&queue, 1, 10, 1, 0, 0);
  if (code == DMC_OK) code = dmc_queue_add(&queue, 1, token, 1, 0, 1, 0, &tags);
  if (code == DMC_OK) code = dmc_queue_pull(&queue, 0, &pulled);
  dmc_queue_free(&queue);
  return code == DMC_OK && dmc_version() == DMC_VERSION ? pulled.token : 0;
}
