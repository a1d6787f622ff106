#define _GNU_SOURCE
#include "tenants.h"

#include <search.h>
#include <stdlib.h>
#include <string.h>

/* The most completions that a tracker counts, which none reaches. */
#define MOST_COMPLETIONS (UINT64_C(1) << 62)

/* ---- lists */

static void append(struct tenant_list *list, struct tenant *tenant)
{
  tenant->later = NULL;
  tenant->earlier = list->last;
  *(list->last ? &list->last->later : &list->first) = tenant;
  list->last = tenant;
}

static void take_out(struct tenant_list *list, struct tenant *tenant)
{
  *(tenant->earlier ? &tenant->earlier->later : &list->first) = tenant->later;
  *(tenant->later ? &tenant->later->earlier : &list->last) = tenant->earlier;
}

/* ---- tenants */

static int by_name(const void *a, const void *b)
{
  return strcmp(((const struct tenant *)a)->name, ((const struct tenant *)b)->name);
}

static void free_tenant(struct tenant *tenant)
{
  dmc_tracker_free(&tenant->tracker);
  free(tenant->returned);
  free(tenant->name);
  free(tenant);
}

static void forget(struct tenants *tenants, struct tenant_list *list, struct tenant *tenant)
{
  take_out(list, tenant);
  tdelete(tenant, &tenants->names, by_name);
  tenants->count--;
  free_tenant(tenant);
}

static struct tenant *new_tenant(struct tenants *tenants, const char *name)
{
  struct tenant *tenant = calloc(1, sizeof *tenant);
  if (!tenant)
    return NULL;
  tenant->name = strdup(name);
  tenant->returned = calloc(tenants->servers, sizeof *tenant->returned);
  bool is_made = tenant->name && tenant->returned &&
                 dmc_tracker_new(&tenant->tracker, tenants->servers, MOST_COMPLETIONS, tenants->counting) == DMC_OK;
  if (is_made && tsearch(tenant, &tenants->names, by_name))
    return tenant;
  free_tenant(tenant);
  return NULL;
}

/* Whether there is a place for one more tenant: the one that was quiet for the longest gives up its own. */
static bool make_place(struct tenants *tenants)
{
  if (tenants->count < tenants->most)
    return true;
  if (!tenants->quiet.first)
    return false;
  forget(tenants, &tenants->quiet, tenants->quiet.first);
  tenants->forgotten++;
  return true;
}

/* The tenant of a name, which is made if there is none. */
static struct tenant *find(struct tenants *tenants, const char *name)
{
  struct tenant wanted = {.name = (char *)name};
  struct tenant **found = tfind(&wanted, &tenants->names, by_name);
  if (found)
    return *found;
  struct tenant *tenant = make_place(tenants) ? new_tenant(tenants, name) : NULL;
  if (tenant) {
    append(&tenants->quiet, tenant);
    tenants->count++;
  }
  return tenant;
}

/* ---- stamps */

/* Stamps a request. If the tracker's counts are more than a stamp can say, they are skipped, as the tracker wants it. */
static bool take_stamp(struct tenants *tenants, struct tenant *tenant, uint32_t server, uint32_t cost, struct dmc_stamp *stamp)
{
  uint32_t code = dmc_tracker_stamp(&tenant->tracker, server, cost, stamp);
  if (code != DMC_TRACK_FULL)
    return code == DMC_OK;
  tenants->lost++;
  dmc_tracker_skip(&tenant->tracker, server);
  return dmc_tracker_stamp(&tenant->tracker, server, cost, stamp) == DMC_OK;
}

/* Adds what was returned of earlier requests to a stamp. What does not fit is lost. */
static void add_returned(struct tenants *tenants, struct tenant *tenant, uint32_t server, struct dmc_stamp *stamp)
{
  uint64_t bit = UINT64_C(1) << server;
  if (!(tenant->has_returned & bit))
    return;
  tenant->has_returned &= ~bit;
  if (dmc_stamp_with_returned(stamp, &tenant->returned[server], tenants->counting) != DMC_OK)
    tenants->lost++;
}

/* Keeps a stamp that did not reach the queue for the next request, with those that are kept already. */
static void keep_returned(struct tenants *tenants, struct tenant *tenant, uint32_t server, struct dmc_stamp stamp)
{
  add_returned(tenants, tenant, server, &stamp);
  tenant->returned[server] = stamp;
  tenant->has_returned |= UINT64_C(1) << server;
}

/* ---- what callers use */

void tenants_close(struct tenants *tenants)
{
  while (tenants->quiet.first)
    forget(tenants, &tenants->quiet, tenants->quiet.first);
}

bool tenants_begin(struct tenants *tenants, const char *name, uint32_t server, uint32_t cost, struct try *try)
{
  struct tenant *tenant = find(tenants, name);
  if (!tenant || !take_stamp(tenants, tenant, server, cost, &try->stamp))
    return false;
  add_returned(tenants, tenant, server, &try->stamp);
  if (tenant->under_way++ == 0) {
    take_out(&tenants->quiet, tenant);
    append(&tenants->busy, tenant);
  }
  tenants->counts[server].stamps++;
  try->tenant = tenant;
  try->server = server;
  return true;
}

void tenants_add(struct tenants *tenants, const struct try *try, const uint32_t costs[2])
{
  for (int phase = 0; phase < 2; phase++)
    if (costs[phase])
      dmc_tracker_respond(&try->tenant->tracker, try->server, (uint32_t)phase, costs[phase]);
  tenants->counts[try->server].abandoned += (uint64_t)costs[0] + costs[1];
}

void tenants_end(struct tenants *tenants, const struct try *try, enum outcome outcome)
{
  struct tenant *tenant = try->tenant;
  struct server_counts *counts = &tenants->counts[try->server];
  if (outcome == OUTCOME_RETURNED) {
    keep_returned(tenants, tenant, try->server, try->stamp);
    counts->returned++;
  } else if (outcome == OUTCOME_EXPIRED) {
    counts->expired++;
  } else {
    enum dmc_phase phase = outcome == OUTCOME_RESERVATION ? DMC_RESERVATION : DMC_PRIORITY;
    dmc_tracker_respond(&tenant->tracker, try->server, phase, try->stamp.cost);
    counts->completions[phase]++;
  }
  if (--tenant->under_way == 0) {
    take_out(&tenants->busy, tenant);
    append(&tenants->quiet, tenant);
  }
}
