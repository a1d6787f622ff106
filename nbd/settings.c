#define _GNU_SOURCE
#include "settings.h"

#include <errno.h>
#include <inttypes.h>
#include <limits.h>
#include <stdarg.h>
#include <stdio.h>
#include <stdlib.h>
#include <string.h>

#include "report.h"
#include "serve.h"
#include "text.h"

#define NBDKIT_API_VERSION 2
#include <nbdkit-filter.h>

#define MOST_SECONDS 1000000000u
#define MOST_MILLIS 1000000000u
#define MOST_DEPTH (1u << 20)
#define MOST_CLIENTS 65536
#define MOST_BYTES (UINT64_C(1) << 62)
#define LEAST_UNIT 512 /* a block: the queue's tags would reach their end within hours if each byte of great zeroes cost 1 */

/* ---- values */

/* A number from 1 on. */
static bool read_count(const char *value, uint64_t most, uint64_t *count)
{
  return text_read_number(value, strlen(value), most, count) && *count > 0;
}

/* ---- rates */

/* What is wrong with a setting, in words; the empty text if nothing is. */
#define FAULT_SIZE 160
typedef char fault_text[FAULT_SIZE];

#define FAULT(fault, ...) ((void)snprintf(fault, FAULT_SIZE, __VA_ARGS__), false)

/* A number from 1 to `most`, or bytes a second, such as 100MiB/s. */
static bool read_rate(const char *text, size_t length, uint64_t most, struct typed_rate *rate)
{
  size_t suffix = strlen("/s");
  rate->is_bytes = length > suffix && strncmp(text + length - suffix, "/s", suffix) == 0;
  bool is_read = rate->is_bytes ? text_read_bytes(text, length - suffix, MOST_BYTES, &rate->number)
                                : text_read_number(text, length, most, &rate->number);
  return is_read && rate->number > 0;
}

/* The reservation or the limit: a rate, or `-` for none. */
static bool read_optional(const char *name, const char *text, size_t length, uint32_t most, struct typed_rate *rate, fault_text fault)
{
  *rate = (struct typed_rate){0, false};
  bool is_none = length == 1 && text[0] == '-';
  return is_none || read_rate(text, length, most, rate) ||
         FAULT(fault, "the %s \"%.*s\" is not a number from 1 to %u, nor bytes as 10MiB/s, nor - for none", name,
               length < 40 ? (int)length : 40, text, most);
}

static bool read_weight(const char *text, size_t length, uint32_t *weight, fault_text fault)
{
  uint64_t number;
  if (!text_read_number(text, length, MOST_WEIGHT, &number) || number == 0)
    return FAULT(fault, "the weight \"%.*s\" is not a number from 1 to %u", length < 40 ? (int)length : 40, text, MOST_WEIGHT);
  *weight = (uint32_t)number;
  return true;
}

/* RESERVATION:WEIGHT:LIMIT */
static bool read_rates(const char *value, struct rates_setting *rates, fault_text fault)
{
  size_t first = strcspn(value, ":");
  const char *weight = value + first + 1;
  if (!value[first] || !strchr(weight, ':'))
    return FAULT(fault, "a field is missing");
  size_t second = strcspn(weight, ":");
  const char *limit = weight + second + 1;
  return read_optional("reservation", value, first, DMC_FINE_HZ, &rates->reservation, fault) &&
         read_weight(weight, second, &rates->weight, fault) &&
         read_optional("limit", limit, strlen(limit), UINT32_MAX, &rates->limit, fault);
}

/* A rate in units of cost a second. One in bytes is rounded, up if it is the least that is asked for. */
static uint64_t units_of(const struct typed_rate *rate, uint32_t unit, bool is_least)
{
  uint64_t rounded = is_least ? unit - 1 : 0;
  return rate->is_bytes && unit ? (rate->number + rounded) / unit : rate->number;
}

/* The same as a rate of a queue, which is at most `most`. */
static bool take_units(const char *name, const struct typed_rate *rate, uint32_t unit, bool is_least, uint32_t most, uint32_t *units,
                       fault_text fault)
{
  uint64_t found = units_of(rate, unit, is_least);
  if (rate->is_bytes && !unit)
    return FAULT(fault, "the %s is in bytes, and there is no dmclock-unit", name);
  if (most < found || (!found && rate->number))
    return FAULT(fault, "the %s is not from 1 to %u units of dmclock-unit=%u a second", name, most, unit);
  *units = (uint32_t)found;
  return true;
}

/* Rates that the queue has, and that one client can have. */
static bool find_rates(struct rates_setting *rates, uint32_t unit, fault_text fault)
{
  struct rates *asked = &rates->asked;
  asked->weight = rates->weight;
  if (!take_units("reservation", &rates->reservation, unit, true, DMC_FINE_HZ, &asked->reservation, fault) ||
      !take_units("limit", &rates->limit, unit, false, UINT32_MAX, &asked->limit, fault))
    return false;
  if (asked->limit && asked->limit < asked->reservation)
    return FAULT(fault, "the reservation %u is above the limit %u", asked->reservation, asked->limit);
  return rates_round(asked, &rates->found) || FAULT(fault, "the queue has no such rate");
}

/* Where the last three fields of NAME:RESERVATION:WEIGHT:LIMIT begin; a name may have colons. NULL if there are none. */
static const char *last_fields(const char *value)
{
  int colons = 0;
  for (const char *at = value + strlen(value); at > value; at--)
    if (at[-1] == ':' && ++colons == 3)
      return at;
  return NULL;
}

/* ---- keys */

/* What is wrong is in no line of the file, but in all of it, if there is one. */
#define WHOLE_FILE UINT_MAX

/* An error, with the line of the file that it is in; 0 if it is of the command line. */
__attribute__((format(printf, 3, 4))) static void say_error(const struct settings *settings, unsigned line, const char *format, ...)
{
  char text[1024], file[PRINTABLE_SIZE];
  va_list words;
  va_start(words, format);
  vsnprintf(text, sizeof text, format, words);
  va_end(words);
  if (!line || !settings->config)
    nbdkit_error("%s", text);
  else if (line == WHOLE_FILE)
    nbdkit_error("%s: %s", text_printable(settings->config, file), text);
  else
    nbdkit_error("%s, line %u: %s", text_printable(settings->config, file), line, text);
}

static int is_bad(const struct settings *settings, const char *key, const char *value, const char *wanted)
{
  char printable[PRINTABLE_SIZE];
  say_error(settings, settings->line, "%s=%s: wanted is %s", key, text_printable(value, printable), wanted);
  return -1;
}

static int is_faulty(const struct settings *settings, const char *key, const char *value, const char *fault, const char *wanted)
{
  char printable[PRINTABLE_SIZE];
  say_error(settings, settings->line, "%s=%s: %s; wanted is %s, in requests a second, or in bytes, as 10MiB/s", key,
            text_printable(value, printable), fault, wanted);
  return -1;
}

/* The client of a name, or NULL. */
static const struct client_setting *find_client(const struct settings *settings, const char *name)
{
  const struct client_setting *client = settings->clients;
  while (client && strcmp(client->name, name) != 0)
    client = client->next;
  return client;
}

bool settings_have(const struct settings *settings, const char *name)
{
  return find_client(settings, name);
}

static void append(struct settings *settings, struct client_setting *client)
{
  struct client_setting **last = &settings->clients;
  while (*last)
    last = &(*last)->next;
  *last = client;
}

static int add_client(struct settings *settings, const char *key, const char *value)
{
  struct client_setting client = {0};
  fault_text fault = "a field is missing";
  const char *fields = last_fields(value);
  if (!fields || !read_rates(fields, &client.rates, fault))
    return is_faulty(settings, key, value, fault, "NAME:RESERVATION:WEIGHT:LIMIT");
  client.rates.line = settings->line;
  client.rates.value = strdup(value);
  client.name = strndup(value, (size_t)(fields - 1 - value));
  struct client_setting *kept = malloc(sizeof *kept);
  bool is_made = client.name && client.rates.value && kept;
  if (!is_made || settings_have(settings, client.name)) {
    int result = is_bad(settings, key, value, is_made ? "a name that no other client has" : "more memory");
    free(client.name);
    free(client.rates.value);
    free(kept);
    return result;
  }
  *kept = client;
  append(settings, kept);
  return 1;
}

static int set_default(struct settings *settings, const char *key, const char *value)
{
  if (settings->has_default)
    return is_bad(settings, key, value, "one default");
  fault_text fault;
  if (!read_rates(value, &settings->others, fault))
    return is_faulty(settings, key, value, fault, "RESERVATION:WEIGHT:LIMIT");
  settings->others.line = settings->line;
  settings->others.value = strdup(value);
  if (!settings->others.value)
    return is_bad(settings, key, value, "more memory");
  settings->has_default = true;
  return 1;
}

static int set_default_clients(struct settings *settings, const char *key, const char *value)
{
  uint64_t most;
  if (!read_count(value, MOST_CLIENTS, &most))
    return is_bad(settings, key, value, "1 to 65536 clients");
  settings->gate.most_others = (uint32_t)most;
  return 1;
}

static int set_shared(struct settings *settings, const char *key, const char *value)
{
  int shared = nbdkit_parse_bool(value);
  if (shared == -1)
    return is_bad(settings, key, value, "true or false");
  settings->is_shared = shared;
  return 1;
}

static int set_unit(struct settings *settings, const char *key, const char *value)
{
  uint64_t unit;
  if (!text_read_bytes(value, strlen(value), UINT32_MAX, &unit) || (unit && unit < LEAST_UNIT))
    return is_bad(settings, key, value, "512 bytes or more, as 4096 or 4KiB, or 0 if each request costs 1");
  settings->gate.unit = (uint32_t)unit;
  return 1;
}

static int set_depth(struct settings *settings, const char *key, const char *value)
{
  uint64_t depth;
  if (!read_count(value, MOST_DEPTH, &depth))
    return is_bad(settings, key, value, "1 to 1048576 requests");
  settings->gate.depth = (uint32_t)depth;
  return 1;
}

/* reject:MS */
static bool read_threshold(const char *value, uint64_t *millis)
{
  size_t word = strlen("reject:");
  return strncmp(value, "reject:", word) == 0 && text_read_number(value + word, strlen(value + word), MOST_MILLIS, millis);
}

static int set_at_limit(struct settings *settings, const char *key, const char *value)
{
  uint64_t millis = 0;
  bool is_reject = read_threshold(value, &millis);
  if (!is_reject && strcmp(value, "wait") != 0 && strcmp(value, "allow") != 0)
    return is_bad(settings, key, value, "wait, allow or reject:MS with 0 to 1000000000 milliseconds");
  settings->gate.at_limit = is_reject ? DMC_REJECT : strcmp(value, "wait") == 0 ? DMC_WAIT : DMC_ALLOW;
  settings->gate.threshold_millis = millis;
  return 1;
}

static int set_shares(struct settings *settings, const char *key, const char *value)
{
  if (strcmp(value, "virtual") != 0 && strcmp(value, "clock") != 0)
    return is_bad(settings, key, value, "virtual or clock");
  settings->gate.shares = strcmp(value, "virtual") == 0 ? DMC_VIRTUAL : DMC_CLOCK;
  return 1;
}

static int set_seconds(const struct settings *settings, uint64_t *seconds, const char *key, const char *value)
{
  return read_count(value, MOST_SECONDS, seconds) ? 1 : is_bad(settings, key, value, "1 to 1000000000 seconds");
}

static int set_idle(struct settings *settings, const char *key, const char *value)
{
  return set_seconds(settings, &settings->gate.idle_seconds, key, value);
}

static int set_erase(struct settings *settings, const char *key, const char *value)
{
  return set_seconds(settings, &settings->gate.erase_seconds, key, value);
}

static int set_capacity(struct settings *settings, const char *key, const char *value)
{
  return read_rate(value, strlen(value), UINT32_MAX, &settings->capacity)
           ? 1 : is_bad(settings, key, value, "1 to 4294967295 requests a second, or bytes, as 10MiB/s");
}

static int set_path(const struct settings *settings, char **path, const char *key, const char *value)
{
  char *absolute = *value ? nbdkit_absolute_path(value) : NULL;
  if (!absolute)
    return is_bad(settings, key, value, "the name of a file");
  free(*path);
  *path = absolute;
  return 1;
}

static int set_config(struct settings *settings, const char *key, const char *value)
{
  if (settings->config)
    return is_bad(settings, key, value, "one file, which names no other");
  return set_path(settings, &settings->config, key, value);
}

static int set_stats(struct settings *settings, const char *key, const char *value)
{
  return set_path(settings, &settings->stats, key, value);
}

/* What is before the path of a socket. The name of a file begins with a slash once it is read. */
#define SOCKET "unix:"

static int set_metrics_socket(struct settings *settings, const char *key, const char *value)
{
  const char *path = value + strlen(SOCKET);
  char *absolute = *path ? nbdkit_absolute_path(path) : NULL, *text = NULL;
  bool is_path = absolute && strlen(absolute) <= MOST_SOCKET_PATH;
  if (is_path && asprintf(&text, SOCKET "%s", absolute) < 0)
    text = NULL;
  free(absolute);
  if (!is_path || !text)
    return is_bad(settings, key, value, is_path ? "more memory" : "a path of 1 to 107 bytes after unix:");
  free(settings->metrics);
  settings->metrics = text;
  return 1;
}

static int set_metrics(struct settings *settings, const char *key, const char *value)
{
  bool is_socket = strncmp(value, SOCKET, strlen(SOCKET)) == 0;
  return is_socket ? set_metrics_socket(settings, key, value) : set_path(settings, &settings->metrics, key, value);
}

const char *settings_metrics_file(const struct settings *settings)
{
  return settings->metrics && *settings->metrics == '/' ? settings->metrics : NULL;
}

const char *settings_metrics_socket(const struct settings *settings)
{
  return settings->metrics && *settings->metrics != '/' ? settings->metrics + strlen(SOCKET) : NULL;
}

/* Each key, and what reads its value: as `settings_read`. */
static const struct {
  const char *name;
  int (*set)(struct settings *, const char *key, const char *value);
} keys[KEYS] = {
  [KEY_CLIENT] = {"dmclock-client", add_client},
  [KEY_DEFAULT] = {"dmclock-default", set_default},
  [KEY_DEFAULT_CLIENTS] = {"dmclock-default-clients", set_default_clients},
  [KEY_DEFAULT_SHARED] = {"dmclock-default-shared", set_shared},
  [KEY_UNIT] = {"dmclock-unit", set_unit},
  [KEY_DEPTH] = {"dmclock-depth", set_depth},
  [KEY_AT_LIMIT] = {"dmclock-at-limit", set_at_limit},
  [KEY_SHARES] = {"dmclock-shares", set_shares},
  [KEY_IDLE] = {"dmclock-idle", set_idle},
  [KEY_ERASE] = {"dmclock-erase", set_erase},
  [KEY_CAPACITY] = {"dmclock-capacity", set_capacity},
  [KEY_STATS] = {"dmclock-stats", set_stats},
  [KEY_METRICS] = {"dmclock-metrics", set_metrics},
  [KEY_CONFIG] = {"dmclock-config", set_config},
};

int settings_read(struct settings *settings, const char *key, const char *value)
{
  for (int which = 0; which < KEYS; which++)
    if (strcmp(key, keys[which].name) == 0) {
      settings->lines[which] = settings->line;
      return keys[which].set(settings, key, value);
    }
  if (strncmp(key, "dmclock-", strlen("dmclock-")) == 0)
    return is_bad(settings, key, value, "another key: dmclock-client, -default, -default-clients, -default-shared, -unit, -depth, -at-limit, "
                                        "-shares, -idle, -erase, -capacity, -stats, -metrics or -config");
  return 0;
}

/* ---- the file */

/* A line without the blanks around it. */
static char *trim(char *line)
{
  line += strspn(line, " \t\r\n");
  size_t length = strlen(line);
  while (length && strchr(" \t\r\n", line[length - 1]))
    length--;
  line[length] = 0;
  return line;
}

static bool read_line(struct settings *settings, char *line)
{
  line = trim(line);
  if (!*line || *line == '#')
    return true;
  char *value = strchr(line, '=');
  if (value)
    *value++ = 0;
  int read = value ? settings_read(settings, line, value) : 0;
  char printable[PRINTABLE_SIZE];
  if (read == 0)
    say_error(settings, settings->line, "%s: wanted is a setting of this filter, KEY=VALUE", text_printable(line, printable));
  return read == 1;
}

static bool read_lines(struct settings *settings, FILE *file)
{
  char *line = NULL;
  size_t room = 0;
  bool is_read = true;
  for (settings->line = 1; is_read && getline(&line, &room, file) != -1; settings->line++)
    is_read = read_line(settings, line);
  settings->line = 0;
  free(line);
  return is_read;
}

bool settings_read_file(struct settings *settings)
{
  if (!settings->config)
    return true;
  FILE *file = fopen(settings->config, "re");
  bool is_read = file && read_lines(settings, file);
  if (!file || ferror(file)) {
    char printable[PRINTABLE_SIZE];
    nbdkit_error("dmclock-config=%s: %s", text_printable(settings->config, printable), strerror(errno));
    is_read = false;
  }
  if (file)
    fclose(file);
  return is_read;
}

/* ---- the rates of all settings */

/* Finds the rates of a setting; an error names the line that it is in. */
static bool find_setting(const struct settings *settings, const char *key, struct rates_setting *rates)
{
  char printable[PRINTABLE_SIZE];
  fault_text fault;
  bool is_found = find_rates(rates, settings->gate.unit, fault);
  if (!is_found)
    say_error(settings, rates->line, "%s=%s: %s", key, text_printable(rates->value, printable), fault);
  return is_found;
}

bool settings_find_rates(struct settings *settings)
{
  if (settings->capacity.is_bytes && !settings->gate.unit) {
    say_error(settings, settings->lines[KEY_CAPACITY], "dmclock-capacity is in bytes, and there is no dmclock-unit");
    return false;
  }
  for (struct client_setting *client = settings->clients; client; client = client->next)
    if (!find_setting(settings, "dmclock-client", &client->rates))
      return false;
  return !settings->has_default || find_setting(settings, "dmclock-default", &settings->others);
}

/* ---- copies */

static bool copy_text(const char *text, char **copy)
{
  *copy = text ? strdup(text) : NULL;
  return !text || *copy;
}

static bool copy_client(struct settings *copy, const struct client_setting *client)
{
  struct client_setting *made = malloc(sizeof *made);
  if (!made)
    return false;
  *made = *client;
  made->next = NULL;
  append(copy, made);
  made->rates.value = NULL; /* if the name can't be copied */
  return copy_text(client->name, &made->name) && copy_text(client->rates.value, &made->rates.value);
}

bool settings_copy(const struct settings *settings, struct settings *copy)
{
  *copy = *settings;
  copy->clients = NULL;
  copy->stats = copy->metrics = copy->config = copy->others.value = NULL;
  bool is_copied = copy_text(settings->stats, &copy->stats) && copy_text(settings->metrics, &copy->metrics) &&
                   copy_text(settings->config, &copy->config) && copy_text(settings->others.value, &copy->others.value);
  for (const struct client_setting *client = settings->clients; is_copied && client; client = client->next)
    is_copied = copy_client(copy, client);
  if (!is_copied)
    settings_free(copy);
  return is_copied;
}

/* ---- settings together */

/* The last line of the file that has either of two settings. */
static unsigned last_line(unsigned one, unsigned other)
{
  return one < other ? other : one;
}

bool settings_agree(const struct settings *settings)
{
  const unsigned *lines = settings->lines;
  if (settings->gate.erase_seconds < settings->gate.idle_seconds) {
    say_error(settings, last_line(lines[KEY_IDLE], lines[KEY_ERASE]), "dmclock-idle=%" PRIu64 " is past dmclock-erase=%" PRIu64,
              settings->gate.idle_seconds, settings->gate.erase_seconds);
    return false;
  }
  const struct client_setting *shared = settings->is_shared ? find_client(settings, SHARED_NAME) : NULL;
  if (shared) {
    say_error(settings, last_line(lines[KEY_DEFAULT_SHARED], shared->rates.line),
              "dmclock-client=%s:..: with dmclock-default-shared that is the name of all other names", SHARED_NAME);
    return false;
  }
  if (!settings->clients && !settings->has_default) {
    say_error(settings, WHOLE_FILE, "dmclock-client and dmclock-default are missing: no name could be opened");
    return false;
  }
  return true;
}

void settings_refuse(const struct settings *settings, enum settings_key key, const char *value, const char *reason)
{
  char printable[PRINTABLE_SIZE];
  say_error(settings, settings->lines[key], "%s=%s: %s", keys[key].name, text_printable(value, printable), reason);
}

static bool can_write(const struct settings *settings, enum settings_key key, const char *path)
{
  const char *reason = path ? report_refusal(path) : NULL;
  if (reason)
    settings_refuse(settings, key, path, reason);
  return !reason;
}

bool settings_can_write(const struct settings *settings)
{
  return can_write(settings, KEY_STATS, settings->stats) && can_write(settings, KEY_METRICS, settings_metrics_file(settings));
}

static bool is_same_text(const char *one, const char *other)
{
  return one && other ? strcmp(one, other) == 0 : one == other;
}

/* Whether a setting of settings is that of others. */
static bool is_same(enum settings_key key, const struct settings *settings, const struct settings *others)
{
  const struct gate_config *one = &settings->gate, *other = &others->gate;
  switch (key) {
    case KEY_DEFAULT_SHARED: return settings->is_shared == others->is_shared;
    case KEY_UNIT: return one->unit == other->unit;
    case KEY_AT_LIMIT: return one->at_limit == other->at_limit && one->threshold_millis == other->threshold_millis;
    case KEY_SHARES: return one->shares == other->shares;
    case KEY_IDLE: return one->idle_seconds == other->idle_seconds;
    case KEY_ERASE: return one->erase_seconds == other->erase_seconds;
    case KEY_STATS: return is_same_text(settings->stats, others->stats);
    case KEY_METRICS: return is_same_text(settings->metrics, others->metrics);
    default: return true; /* it may change */
  }
}

bool settings_may_follow(const struct settings *settings, const struct settings *others)
{
  for (int key = 0; key < KEYS; key++) {
    unsigned line = settings->lines[key];
    if (is_same(key, settings, others))
      continue;
    say_error(settings, line ? line : WHOLE_FILE, "%s%s can't change while the filter runs", keys[key].name, line ? "" : " is missing, and");
    return false;
  }
  return true;
}

/* ---- what the rates became */

/* The reservations of all clients that there may be. */
static uint64_t reserved(const struct settings *settings)
{
  uint64_t others = !settings->has_default ? 0 : settings->is_shared ? 1 : settings->gate.most_others;
  uint64_t sum = others * settings->others.found.reservation;
  for (const struct client_setting *client = settings->clients; client; client = client->next)
    sum += client->rates.found.reservation;
  return sum;
}

static void warn_of_capacity(const struct settings *settings)
{
  uint64_t sum = reserved(settings), capacity = units_of(&settings->capacity, settings->gate.unit, false);
  if (settings->capacity.number && capacity < sum)
    nbdkit_error("dmclock: warning: the reservations are %llu %s a second, and dmclock-capacity is %llu: not all can be met%s",
                 (unsigned long long)sum, settings->gate.unit ? "units" : "requests", (unsigned long long)capacity,
                 settings->has_default && settings->others.found.reservation && !settings->is_shared
                   ? " (dmclock-default counts for each of dmclock-default-clients)" : "");
}

#define RATE_SIZE 80

/* A rate in words, and what was asked if that is another. With a unit it is said in bytes a second, too. Returns `text`. */
static const char *rate_text(const char *name, uint32_t asked, uint32_t found, uint32_t unit, char text[RATE_SIZE])
{
  char other[24] = "", bytes[40] = "";
  if (asked != found)
    snprintf(other, sizeof other, " for %u", asked);
  if (unit)
    snprintf(bytes, sizeof bytes, " (%.1f MiB/s)", (double)found * unit / (1 << 20));
  if (asked)
    snprintf(text, RATE_SIZE, "%s %u%s%s", name, found, other, bytes);
  else
    snprintf(text, RATE_SIZE, "no %s", name);
  return text;
}

/* Says what the rates became. nbdkit has errors, which reach the log wherever it is, and what is shown with -v alone: so rates that
   became others are logged as errors, and no line that says so is of rates that are as they were typed. */
static void log_rates(const char *name, const struct rates_setting *rates, uint32_t unit)
{
  const struct rates *asked = &rates->asked, *found = &rates->found;
  bool is_same = asked->reservation == found->reservation && asked->weight == found->weight && asked->limit == found->limit;
  char printable[PRINTABLE_SIZE], reservation[RATE_SIZE], weight[RATE_SIZE], limit[RATE_SIZE];
  (is_same ? nbdkit_debug : nbdkit_error)("dmclock: %s, %s, %s, %s", text_printable(name, printable),
                                          rate_text("reservation", asked->reservation, found->reservation, unit, reservation),
                                          rate_text("weight", asked->weight, found->weight, 0, weight),
                                          rate_text("limit", asked->limit, found->limit, unit, limit));
}

void settings_log(const struct settings *settings)
{
  for (const struct client_setting *client = settings->clients; client; client = client->next)
    log_rates(client->name, &client->rates, settings->gate.unit);
  if (settings->has_default)
    log_rates(settings->is_shared ? "other names together" : "other names, each", &settings->others, settings->gate.unit);
  warn_of_capacity(settings);
}

void settings_free(struct settings *settings)
{
  while (settings->clients) {
    struct client_setting *client = settings->clients;
    settings->clients = client->next;
    free(client->name);
    free(client->rates.value);
    free(client);
  }
  free(settings->stats);
  free(settings->metrics);
  free(settings->config);
  free(settings->others.value);
  settings->stats = settings->metrics = settings->config = settings->others.value = NULL;
}
