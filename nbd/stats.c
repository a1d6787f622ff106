#include "stats.h"

#include <inttypes.h>

#include "text.h"

static void put_row(FILE *text, const struct report *report, const struct row *client)
{
  const struct times *waited = &client->waited;
  fprintf(text, "{\"time\": %.3f, \"seconds\": %.3f, \"client\": ", report->time, report->seconds);
  text_put_json(text, client->name);
  fprintf(text, ", \"requests\": %" PRIu64 ", \"refused\": %" PRIu64 ", \"cancelled\": %" PRIu64, client->requests, client->refused,
          client->cancelled);
  fprintf(text, ", \"queue_faults\": %" PRIu64 ", \"errors\": %" PRIu64, client->queue_faults, client->errors);
  fprintf(text, ", \"reservation\": %" PRIu64 ", \"priority\": %" PRIu64 ", \"queued\": %" PRIu32, client->grants[DMC_RESERVATION],
          client->grants[DMC_PRIORITY], client->queued);
  fprintf(text, ", \"cost\": %" PRIu64 ", \"bytes\": %" PRIu64, client->costs[DMC_RESERVATION] + client->costs[DMC_PRIORITY],
          client->bytes[DMC_RESERVATION] + client->bytes[DMC_PRIORITY]);
  fprintf(text, ", \"wait_mean_us\": %.1f, \"wait_p99_us\": %.1f, \"wait_most_us\": %.1f}\n", (double)times_mean(waited) / 1e3,
          (double)times_percentile(waited, 99) / 1e3, (double)waited->greatest / 1e3);
}

void stats_put(FILE *text, const struct report *report)
{
  for (size_t i = 0; i < report->count; i++)
    put_row(text, report, &report->rows[i]);
}
