#define _GNU_SOURCE
#include "report.h"

#include <errno.h>
#include <fcntl.h>
#include <stdlib.h>
#include <string.h>
#include <sys/stat.h>
#include <time.h>
#include <unistd.h>

/* ---- rows */

void report_free(struct report *report)
{
  for (size_t i = 0; i < report->count; i++)
    free(report->rows[i].name);
  free(report->rows);
  *report = (struct report){0};
}

static bool copy_row(struct row *row, const struct client *client)
{
  *row = (struct row){.name = strdup(client->name), .rates = client->rates, .requests = client->requests, .beyond = client->beyond,
                      .cancelled = client->cancelled, .refused = client->refused, .queue_faults = client->queue_faults,
                      .errors = client->errors, .queued = client->queued, .waited = client->waited};
  memcpy(row->grants, client->grants, sizeof row->grants);
  memcpy(row->costs, client->costs, sizeof row->costs);
  memcpy(row->bytes, client->bytes, sizeof row->bytes);
  memcpy(row->buckets, client->buckets, sizeof row->buckets);
  return row->name != NULL;
}

static double wall_clock(void)
{
  struct timespec time;
  clock_gettime(CLOCK_REALTIME, &time);
  return (double)time.tv_sec + (double)time.tv_nsec / 1e9;
}

/* Copies the clients that have a row of the room: no memory but names is allocated while requests wait for the lock. Returns how many
   clients there are; fewer rows than that are no use. */
static size_t copy_rows(struct gate *gate, struct report *report)
{
  size_t clients = 0;
  pthread_mutex_lock(&gate->lock);
  report->time = wall_clock();
  report->seconds = (double)gate_now(gate) / 1e9;
  report->depth = gate->config.depth;
  report->under_way = gate->under_way;
  for (const struct client *client = gate->first; client; client = client->next)
    if (clients++ < report->room && copy_row(&report->rows[report->count], client))
      report->count++;
  pthread_mutex_unlock(&gate->lock);
  return clients;
}

bool report_take(struct gate *gate, struct report *report)
{
  size_t clients = 16;
  *report = (struct report){0};
  do {
    report_free(report);
    report->room = clients + clients / 8;
    report->rows = malloc(report->room * sizeof *report->rows);
    if (!report->rows)
      return false;
    clients = copy_rows(gate, report);
  } while (report->room < clients);
  return report->count == clients;
}

/* ---- texts and files */

char *report_text(const struct report *report, void (*put)(FILE *, const struct report *), size_t *length)
{
  char *text = NULL;
  FILE *stream = open_memstream(&text, length);
  if (!stream)
    return NULL;
  put(stream, report);
  if (fclose(stream) == 0)
    return text;
  free(text);
  return NULL;
}

static int write_file(const char *path, const char *text, size_t length)
{
  FILE *file = fopen(path, "we");
  if (!file)
    return errno;
  size_t written = fwrite(text, 1, length, file);
  int fault = written < length ? errno : 0;
  return fclose(file) ? errno : fault;
}

/* The file beside it; NULL if memory is short. */
static char *name_beside(const char *path)
{
  char *beside;
  return asprintf(&beside, "%s.new", path) < 0 ? NULL : beside;
}

/* A server may start as another user than it runs as. So nothing that is there is followed or changed, and what is made is taken away. */
const char *report_refusal(const char *path)
{
  struct stat found;
  if (stat(path, &found) == 0 && !S_ISREG(found.st_mode))
    return "there is something that is no regular file";
  char *beside = name_beside(path);
  if (!beside)
    return strerror(ENOMEM);
  int file = open(beside, O_WRONLY | O_CREAT | O_NOFOLLOW | O_CLOEXEC, 0666);
  const char *reason = file == -1 ? strerror(errno) : NULL;
  if (file != -1) {
    close(file);
    unlink(beside);
  }
  free(beside);
  return reason;
}

static int replace_file(const char *path, const char *text, size_t length)
{
  char *beside = name_beside(path);
  if (!beside)
    return ENOMEM;
  int fault = write_file(beside, text, length);
  if (!fault && rename(beside, path))
    fault = errno;
  if (fault)
    unlink(beside);
  free(beside);
  return fault;
}

int report_write(const struct report *report, void (*put)(FILE *, const struct report *), const char *path)
{
  size_t length;
  char *text = report_text(report, put, &length);
  int fault = text ? replace_file(path, text, length) : ENOMEM;
  free(text);
  return fault;
}
