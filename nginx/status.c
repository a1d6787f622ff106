#include "status.h"

#include <inttypes.h>

#include "text.h"

static const char *const phases[2] = {[DMC_RESERVATION] = "reservation", [DMC_PRIORITY] = "priority"};

/* The completions of a tenant at all servers. */
static struct dmc_track completions_of(struct tenant *tenant)
{
  struct dmc_track track = {0};
  dmc_tracker_status(&tenant->tracker, 0, &track);
  return track;
}

/* ---- JSON */

static void put_json_client(FILE *text, const struct zone *zone, const struct client *client)
{
  const struct buckets *waited = client->waited;
  fputs("{\"zone\": ", text);
  text_put_json(text, zone->config.name);
  fputs(", \"client\": ", text);
  text_put_json(text, client->name);
  fprintf(text, ", \"reservation_rate\": %" PRIu32 ", \"weight\": %" PRIu32 ", \"limit\": %" PRIu32, client->rates.reservation,
          client->rates.weight, client->rates.limit);
  fprintf(text, ", \"requests\": %" PRIu64 ", \"reservation\": %" PRIu64 ", \"priority\": %" PRIu64 ", \"beyond\": %" PRIu64,
          client->requests, client->grants[DMC_RESERVATION], client->grants[DMC_PRIORITY], client->beyond);
  fprintf(text, ", \"cost\": %" PRIu64, client->costs[DMC_RESERVATION] + client->costs[DMC_PRIORITY]);
  fprintf(text, ", \"refused\": %" PRIu64 ", \"left\": %" PRIu64 ", \"expired\": %" PRIu64, client->refused, client->left, client->expired);
  fprintf(text, ", \"queued\": %" PRIu32 ", \"under_way\": %" PRIu32 ", \"waited_us\": %" PRIu64 "}\n", client->queued, client->under_way,
          (waited[DMC_RESERVATION].sum + waited[DMC_PRIORITY].sum) / 1000);
}

static void put_json_zone(FILE *text, const struct zone *zone)
{
  fputs("{\"zone\": ", text);
  text_put_json(text, zone->config.name);
  fprintf(text, ", \"depth\": %" PRIu32 ", \"under_way\": %" PRIu32 ", \"waiting\": %" PRIu32 ", \"queued\": %" PRIu32, zone->config.depth,
          zone->under_way, zone->waiting, zone->queued);
  fprintf(text, ", \"stamped\": %" PRIu64 ", \"untrusted\": %" PRIu64 ", \"malformed\": %" PRIu64 ", \"unknown\": %" PRIu64 "}\n",
          zone->stamped, zone->untrusted, zone->malformed, zone->unknown);
  for (const struct client *client = zone->first; client; client = client->next)
    put_json_client(text, zone, client);
}

static void put_json_server(FILE *text, const struct tenants *tracker, uint32_t server)
{
  const struct server_counts *counts = &tracker->counts[server];
  fputs("{\"tracker\": ", text);
  text_put_json(text, tracker->name);
  fputs(", \"server\": ", text);
  text_put_json(text, tracker->server_names[server]);
  fprintf(text, ", \"stamps\": %" PRIu64 ", \"reservation\": %" PRIu64 ", \"priority\": %" PRIu64 ", \"returned\": %" PRIu64
          ", \"expired\": %" PRIu64 ", \"abandoned\": %" PRIu64 "}\n", counts->stamps, counts->completions[DMC_RESERVATION],
          counts->completions[DMC_PRIORITY], counts->returned, counts->expired, counts->abandoned);
}

static void put_json_tenants(FILE *text, const struct tenants *tracker, struct tenant *first)
{
  for (struct tenant *tenant = first; tenant; tenant = tenant->later) {
    struct dmc_track track = completions_of(tenant);
    fputs("{\"tracker\": ", text);
    text_put_json(text, tracker->name);
    fputs(", \"tenant\": ", text);
    text_put_json(text, tenant->name);
    fprintf(text, ", \"under_way\": %" PRIu32 ", \"completions\": %" PRIu64 ", \"reservation\": %" PRIu64 "}\n", tenant->under_way,
            track.completions, track.reservation);
  }
}

static void put_json_tracker(FILE *text, const struct tenants *tracker)
{
  fputs("{\"tracker\": ", text);
  text_put_json(text, tracker->name);
  fprintf(text, ", \"tenants\": %" PRIu32 ", \"forgotten\": %" PRIu64 ", \"lost\": %" PRIu64 ", \"unstamped\": %" PRIu64 "}\n",
          tracker->count, tracker->forgotten, tracker->lost, tracker->unstamped);
  for (uint32_t server = 0; server < tracker->servers; server++)
    put_json_server(text, tracker, server);
  put_json_tenants(text, tracker, tracker->busy.first);
  put_json_tenants(text, tracker, tracker->quiet.first);
}

static void put_json_trackers(FILE *text, const struct status *status)
{
  for (size_t i = 0; i < status->tracker_count; i++)
    put_json_tracker(text, status->trackers[i]);
}

void status_put_json(FILE *text, const struct status *status)
{
  for (size_t i = 0; i < status->zone_count; i++)
    put_json_zone(text, status->zones[i]);
  put_json_trackers(text, status);
}

/* ---- Prometheus */

/* A metric: NAME{LABELS} NUMBER, a line for each of what has it. */
struct metric {
  FILE *text;
  const char *name;
};

static struct metric put_head(FILE *text, const char *name, const char *kind, const char *help)
{
  fprintf(text, "# HELP %s %s\n# TYPE %s %s\n", name, help, name, kind);
  return (struct metric){text, name};
}

/* NAME{FIRST="..",SECOND=".." with no second label if there is none, and after it what other labels there are. */
static void put_labels(const struct metric *metric, const char *ending, const char *first, const char *name, const char *second,
                       const char *second_name)
{
  fprintf(metric->text, "%s%s{%s=", metric->name, ending, first);
  text_put_label(metric->text, name);
  if (!second)
    return;
  fprintf(metric->text, ",%s=", second);
  text_put_label(metric->text, second_name);
}

static void put_client(const struct metric *metric, const char *ending, const struct zone *zone, const struct client *client)
{
  put_labels(metric, ending, "zone", zone->config.name, "client", client->name);
}

/* The numbers of clients, zones, servers of trackers, and trackers. */
static uint64_t requests_of(const struct client *client) { return client->requests; }
static uint64_t beyond_of(const struct client *client) { return client->beyond; }
static uint64_t refused_of(const struct client *client) { return client->refused; }
static uint64_t left_of(const struct client *client) { return client->left; }
static uint64_t expired_of(const struct client *client) { return client->expired; }
static uint64_t queued_of(const struct client *client) { return client->queued; }
static uint64_t reservation_of(const struct client *client) { return client->rates.reservation; }
static uint64_t weight_of(const struct client *client) { return client->rates.weight; }
static uint64_t limit_of(const struct client *client) { return client->rates.limit; }
static uint64_t depth_of(const struct zone *zone) { return zone->config.depth; }
static uint64_t under_way_of(const struct zone *zone) { return zone->under_way; }
static uint64_t waiting_of(const struct zone *zone) { return zone->waiting; }
static uint64_t zone_queued_of(const struct zone *zone) { return zone->queued; }
static uint64_t unknown_of(const struct zone *zone) { return zone->unknown; }
static uint64_t stamps_of(const struct server_counts *counts) { return counts->stamps; }
static uint64_t abandoned_of(const struct server_counts *counts) { return counts->abandoned; }
static uint64_t returned_of(const struct server_counts *counts) { return counts->returned; }
static uint64_t server_expired_of(const struct server_counts *counts) { return counts->expired; }
static uint64_t tenants_of(const struct tenants *tracker) { return tracker->count; }
static uint64_t forgotten_of(const struct tenants *tracker) { return tracker->forgotten; }
static uint64_t lost_of(const struct tenants *tracker) { return tracker->lost; }
static uint64_t unstamped_of(const struct tenants *tracker) { return tracker->unstamped; }

/* A metric of the text: one of these numbers, or lines that are written by a function of their own. */
struct row {
  const char *name, *kind, *help;
  uint64_t (*of_client)(const struct client *);
  uint64_t (*of_rate)(const struct client *); /* 0 is none, and has no line */
  uint64_t (*of_zone)(const struct zone *);
  uint64_t (*of_server)(const struct server_counts *);
  uint64_t (*of_tracker)(const struct tenants *);
  void (*put_zone)(const struct metric *, const struct zone *);
  void (*put_tracker)(const struct metric *, const struct tenants *);
};

static void put_clients(const struct metric *metric, const struct row *row, const struct zone *zone)
{
  for (const struct client *client = zone->first; client; client = client->next) {
    uint64_t number = row->of_rate ? row->of_rate(client) : row->of_client(client);
    if (row->of_rate && !number)
      continue;
    put_client(metric, "", zone, client);
    fprintf(metric->text, "} %" PRIu64 "\n", number);
  }
}

static void put_servers(const struct metric *metric, const struct row *row, const struct tenants *tracker)
{
  for (uint32_t server = 0; server < tracker->servers; server++) {
    put_labels(metric, "", "tracker", tracker->name, "server", tracker->server_names[server]);
    fprintf(metric->text, "} %" PRIu64 "\n", row->of_server(&tracker->counts[server]));
  }
}

static void put_number(const struct metric *metric, const char *label, const char *name, uint64_t number)
{
  put_labels(metric, "", label, name, NULL, NULL);
  fprintf(metric->text, "} %" PRIu64 "\n", number);
}

static void put_stamps(const struct metric *metric, const struct zone *zone)
{
  const char *const kinds[] = {"trusted", "untrusted", "malformed"};
  uint64_t numbers[] = {zone->stamped, zone->untrusted, zone->malformed};
  for (int i = 0; i < 3; i++) {
    put_labels(metric, "", "zone", zone->config.name, "kind", kinds[i]);
    fprintf(metric->text, "} %" PRIu64 "\n", numbers[i]);
  }
}

static void put_phases(const struct metric *metric, const struct zone *zone, const struct client *client, const uint64_t numbers[2])
{
  for (int phase = 0; phase < 2; phase++) {
    put_client(metric, "", zone, client);
    fprintf(metric->text, ",phase=\"%s\"} %" PRIu64 "\n", phases[phase], numbers[phase]);
  }
}

static void put_granted(const struct metric *metric, const struct zone *zone)
{
  for (const struct client *client = zone->first; client; client = client->next)
    put_phases(metric, zone, client, client->grants);
}

static void put_costs(const struct metric *metric, const struct zone *zone)
{
  for (const struct client *client = zone->first; client; client = client->next)
    put_phases(metric, zone, client, client->costs);
}

static void put_histogram(const struct metric *metric, const struct zone *zone, const struct client *client, int phase)
{
  const struct buckets *buckets = &client->waited[phase];
  uint64_t counted = 0;
  for (unsigned bucket = 0; bucket < BUCKETS; bucket++) {
    counted += buckets->counts[bucket];
    put_client(metric, "_bucket", zone, client);
    fprintf(metric->text, ",phase=\"%s\",le=\"", phases[phase]);
    if (bucket < BUCKETS - 1)
      fprintf(metric->text, "%g", (double)bucket_ends[bucket] / 1e9);
    else
      fputs("+Inf", metric->text);
    fprintf(metric->text, "\"} %" PRIu64 "\n", counted);
  }
  put_client(metric, "_sum", zone, client);
  fprintf(metric->text, ",phase=\"%s\"} %.9f\n", phases[phase], (double)buckets->sum / 1e9);
  put_client(metric, "_count", zone, client);
  fprintf(metric->text, ",phase=\"%s\"} %" PRIu64 "\n", phases[phase], counted);
}

/* A client without a grant of a phase has no histogram of it: with many clients they are most of the text. */
static void put_waits(const struct metric *metric, const struct zone *zone)
{
  for (const struct client *client = zone->first; client; client = client->next)
    for (int phase = 0; phase < 2; phase++)
      if (client->grants[phase])
        put_histogram(metric, zone, client, phase);
}

static void put_completions(const struct metric *metric, const struct tenants *tracker)
{
  for (uint32_t server = 0; server < tracker->servers; server++)
    for (int phase = 0; phase < 2; phase++) {
      put_labels(metric, "", "tracker", tracker->name, "server", tracker->server_names[server]);
      fprintf(metric->text, ",phase=\"%s\"} %" PRIu64 "\n", phases[phase], tracker->counts[server].completions[phase]);
    }
}

static void put_tenant_list(const struct metric *metric, const struct tenants *tracker, struct tenant *first)
{
  for (struct tenant *tenant = first; tenant; tenant = tenant->later) {
    struct dmc_track track = completions_of(tenant);
    uint64_t by_phase[2] = {[DMC_RESERVATION] = track.reservation, [DMC_PRIORITY] = track.completions - track.reservation};
    for (int phase = 0; phase < 2; phase++) {
      put_labels(metric, "", "tracker", tracker->name, "tenant", tenant->name);
      fprintf(metric->text, ",phase=\"%s\"} %" PRIu64 "\n", phases[phase], by_phase[phase]);
    }
  }
}

static void put_tenant_completions(const struct metric *metric, const struct tenants *tracker)
{
  put_tenant_list(metric, tracker, tracker->busy.first);
  put_tenant_list(metric, tracker, tracker->quiet.first);
}

/* ---- the metrics, in the order of the text */

static const struct row rows[] = {
  {"dmclock_requests_total", "counter", "Requests that were queued.", .of_client = requests_of},
  {"dmclock_granted_total", "counter", "Requests that were granted, by the phase of the grant.", .put_zone = put_granted},
  {"dmclock_granted_cost_total", "counter", "What these requests cost.", .put_zone = put_costs},
  {"dmclock_beyond_total", "counter", "Grants beyond the client's limit (at_limit=allow).", .of_client = beyond_of},
  {"dmclock_refused_total", "counter", "Requests that were not queued.", .of_client = refused_of},
  {"dmclock_left_total", "counter", "Requests that left while they waited.", .of_client = left_of},
  {"dmclock_expired_total", "counter", "Requests that waited for longer than the timeout.", .of_client = expired_of},
  {"dmclock_wait_seconds", "histogram", "How long requests waited for their grant, by its phase.", .put_zone = put_waits},
  {"dmclock_queued", "gauge", "Requests in the queue, those that are to be cancelled among them.", .of_client = queued_of},
  {"dmclock_reservation", "gauge", "The client's reservation, in units of cost a second.", .of_rate = reservation_of},
  {"dmclock_weight", "gauge", "The client's weight.", .of_rate = weight_of},
  {"dmclock_limit", "gauge", "The client's limit, in units of cost a second.", .of_rate = limit_of},
  {"dmclock_depth", "gauge", "How many requests the device may have at once.", .of_zone = depth_of},
  {"dmclock_under_way", "gauge", "How many requests the device has.", .of_zone = under_way_of},
  {"dmclock_waiting", "gauge", "How many requests wait.", .of_zone = waiting_of},
  {"dmclock_zone_queued", "gauge", "Requests in the queue, those that are to be cancelled among them.", .of_zone = zone_queued_of},
  {"dmclock_stamps_total", "counter", "Requests with a stamp, by whether it counted.", .put_zone = put_stamps},
  {"dmclock_unknown_total", "counter", "Requests of names that are no client.", .of_zone = unknown_of},
  {"dmclock_tracker_stamps_total", "counter", "Requests that were stamped.", .of_server = stamps_of},
  {"dmclock_tracker_completions_total", "counter", "Responses that were counted, by phase.", .put_tracker = put_completions},
  {"dmclock_tracker_abandoned_total", "counter", "What granted requests cost that have no response.", .of_server = abandoned_of},
  {"dmclock_tracker_returned_total", "counter", "Stamps that did not reach a queue, and go out again.", .of_server = returned_of},
  {"dmclock_tracker_expired_total", "counter", "Requests that expired at the server, or have no response.", .of_server = server_expired_of},
  {"dmclock_tracker_tenants", "gauge", "How many tenants have a tracker.", .of_tracker = tenants_of},
  {"dmclock_tracker_forgotten_total", "counter", "Tenants whose place another took.", .of_tracker = forgotten_of},
  {"dmclock_tracker_lost_total", "counter", "Stamps with counts that are more than a stamp can say.", .of_tracker = lost_of},
  {"dmclock_tracker_unstamped_total", "counter", "Requests that were sent without a stamp.", .of_tracker = unstamped_of},
  {"dmclock_tenant_completions_total", "counter", "What the responses that were counted cost, by phase.", .put_tracker = put_tenant_completions},
};

static void put_zone_row(const struct metric *metric, const struct row *row, const struct zone *zone)
{
  if (row->put_zone)
    row->put_zone(metric, zone);
  else if (row->of_zone)
    put_number(metric, "zone", zone->config.name, row->of_zone(zone));
  else if (row->of_client || row->of_rate)
    put_clients(metric, row, zone);
}

static void put_tracker_row(const struct metric *metric, const struct row *row, const struct tenants *tracker)
{
  if (row->put_tracker)
    row->put_tracker(metric, tracker);
  else if (row->of_tracker)
    put_number(metric, "tracker", tracker->name, row->of_tracker(tracker));
  else if (row->of_server)
    put_servers(metric, row, tracker);
}

static void put_trackers(const struct metric *metric, const struct row *row, const struct status *status)
{
  for (size_t i = 0; i < status->tracker_count; i++)
    put_tracker_row(metric, row, status->trackers[i]);
}

static void put_row(FILE *text, const struct row *row, const struct status *status)
{
  struct metric metric = put_head(text, row->name, row->kind, row->help);
  for (size_t i = 0; i < status->zone_count; i++)
    put_zone_row(&metric, row, status->zones[i]);
  put_trackers(&metric, row, status);
}

void status_put_prometheus(FILE *text, const struct status *status)
{
  for (const struct row *row = rows; row < rows + sizeof rows / sizeof *rows; row++)
    put_row(text, row, status);
}
