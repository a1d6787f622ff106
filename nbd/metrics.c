#include "metrics.h"

#include <inttypes.h>

#include "text.h"

static const char *const phases[2] = {[DMC_RESERVATION] = "reservation", [DMC_PRIORITY] = "priority"};

static void put_head(FILE *text, const char *name, const char *kind, const char *help)
{
  fprintf(text, "# HELP %s %s\n# TYPE %s %s\n", name, help, name, kind);
}

/* NAME{client="..", and after it what other labels there are. */
static void put_client(FILE *text, const char *name, const struct row *client)
{
  fprintf(text, "%s{client=", name);
  text_put_label(text, client->name);
}

/* A number of each client, which `number` reads; a rate of 0 is none, and has no line. */
static void put_each(FILE *text, const struct report *report, const char *name, const char *kind, const char *help,
                     uint64_t (*number)(const struct row *), bool is_rate)
{
  put_head(text, name, kind, help);
  for (const struct row *client = report->rows; client < report->rows + report->count; client++) {
    if (is_rate && !number(client))
      continue;
    put_client(text, name, client);
    fprintf(text, "} %" PRIu64 "\n", number(client));
  }
}

static uint64_t requests_of(const struct row *client) { return client->requests; }
static uint64_t beyond_of(const struct row *client) { return client->beyond; }
static uint64_t cancelled_of(const struct row *client) { return client->cancelled; }
static uint64_t refused_of(const struct row *client) { return client->refused; }
static uint64_t queue_faults_of(const struct row *client) { return client->queue_faults; }
static uint64_t errors_of(const struct row *client) { return client->errors; }
static uint64_t queued_of(const struct row *client) { return client->queued; }
static uint64_t reservation_of(const struct row *client) { return client->rates.reservation; }
static uint64_t weight_of(const struct row *client) { return client->rates.weight; }
static uint64_t limit_of(const struct row *client) { return client->rates.limit; }

static const uint64_t *grants_of(const struct row *client) { return client->grants; }
static const uint64_t *costs_of(const struct row *client) { return client->costs; }
static const uint64_t *bytes_of(const struct row *client) { return client->bytes; }

/* A counter of each client and phase, which `numbers` reads. */
static void put_phases(FILE *text, const struct report *report, const char *name, const char *help,
                       const uint64_t *(*numbers)(const struct row *))
{
  put_head(text, name, "counter", help);
  for (const struct row *client = report->rows; client < report->rows + report->count; client++)
    for (int phase = 0; phase < 2; phase++) {
      put_client(text, name, client);
      fprintf(text, ",phase=\"%s\"} %" PRIu64 "\n", phases[phase], numbers(client)[phase]);
    }
}

static void put_histogram(FILE *text, const struct row *client, int phase)
{
  const struct buckets *buckets = &client->buckets[phase];
  uint64_t counted = 0;
  for (unsigned bucket = 0; bucket < BUCKETS; bucket++) {
    counted += buckets->counts[bucket];
    put_client(text, "dmclock_wait_seconds_bucket", client);
    fprintf(text, ",phase=\"%s\",le=\"", phases[phase]);
    if (bucket < BUCKETS - 1)
      fprintf(text, "%g", (double)bucket_ends[bucket] / 1e9);
    else
      fputs("+Inf", text);
    fprintf(text, "\"} %" PRIu64 "\n", counted);
  }
  put_client(text, "dmclock_wait_seconds_sum", client);
  fprintf(text, ",phase=\"%s\"} %.9f\n", phases[phase], (double)buckets->sum / 1e9);
  put_client(text, "dmclock_wait_seconds_count", client);
  fprintf(text, ",phase=\"%s\"} %" PRIu64 "\n", phases[phase], counted);
}

static void put_waits(FILE *text, const struct report *report)
{
  put_head(text, "dmclock_wait_seconds", "histogram", "How long requests waited for their grant, by its phase.");
  for (const struct row *client = report->rows; client < report->rows + report->count; client++)
    for (int phase = 0; phase < 2; phase++)
      put_histogram(text, client, phase);
}

void metrics_put(FILE *text, const struct report *report)
{
  put_each(text, report, "dmclock_requests_total", "counter", "Requests that were queued.", requests_of, false);
  put_phases(text, report, "dmclock_granted_total", "Requests that were granted, by the phase of the grant.", grants_of);
  put_phases(text, report, "dmclock_granted_cost_total", "What these requests cost.", costs_of);
  put_phases(text, report, "dmclock_granted_bytes_total", "How many bytes these requests were for.", bytes_of);
  put_each(text, report, "dmclock_beyond_total", "counter", "Grants beyond the client's limit (dmclock-at-limit=allow).", beyond_of, false);
  put_each(text, report, "dmclock_cancelled_total", "counter", "Requests whose connection went while they were queued.", cancelled_of, false);
  put_each(text, report, "dmclock_refused_total", "counter", "Requests over the client's limit (dmclock-at-limit=reject).", refused_of, false);
  put_each(text, report, "dmclock_queue_faults_total", "counter", "Requests that the queue refused by a fault.", queue_faults_of, false);
  put_each(text, report, "dmclock_errors_total", "counter", "Requests that the device ended with an error.", errors_of, false);
  put_waits(text, report);
  put_each(text, report, "dmclock_queued", "gauge", "Requests that wait.", queued_of, false);
  put_each(text, report, "dmclock_reservation", "gauge", "The client's reservation, in units of cost a second.", reservation_of, true);
  put_each(text, report, "dmclock_weight", "gauge", "The client's weight.", weight_of, true);
  put_each(text, report, "dmclock_limit", "gauge", "The client's limit, in units of cost a second.", limit_of, true);
  put_head(text, "dmclock_depth", "gauge", "How many requests the device may have at once.");
  fprintf(text, "dmclock_depth %" PRIu32 "\n", report->depth);
  put_head(text, "dmclock_under_way", "gauge", "How many requests the device has.");
  fprintf(text, "dmclock_under_way %" PRIu32 "\n", report->under_way);
}
