/* An nbdkit filter that puts a dmClock queue before any plugin: each export name is a client. */
#define _GNU_SOURCE
#define NBDKIT_API_VERSION 2
#include <nbdkit-filter.h>

#include <errno.h>
#include <pthread.h>
#include <signal.h>
#include <stdlib.h>
#include <string.h>
#include <sys/stat.h>
#include <time.h>

#include "gate.h"
#include "metrics.h"
#include "serve.h"
#include "settings.h"
#include "stats.h"
#include "text.h"

/* The settings of the command line, and these with those of the file, which change under the lock. */
static struct settings given = SETTINGS_DEFAULT;
static struct settings settings;
static pthread_mutex_t settings_lock = PTHREAD_MUTEX_INITIALIZER;
static struct gate gate;

/* The socket of the metrics. */
static struct served served;

/* The thread that writes what is reported, reads the file again, and logs what stops the gate. */
static pthread_t watcher;
static bool has_watcher;

/* ---- connections */

/* The handle of a connection. */
struct connection {
  struct waiter waiter;    /* first, so that a waiter of the gate is a connection */
  struct client *client;
  pthread_mutex_t lock;    /* of has_gone and of the door, and held while nbdkit is asked whether the connection has gone */
  bool has_gone;
  bool is_held;            /* the door is, by the thread that may answer once the connection has gone */
  bool is_stuck;           /* the door was held for too long: nobody waits for it any more */
  unsigned passed;         /* how often the door was held */
  pthread_cond_t opens;    /* the door does */
  pthread_t opener;        /* the thread that opened it */
  struct connection *next, **link; /* the next one, and what points to this one */
};

/* Those that are open. nbdkit does not close what is open at a shutdown. */
static struct connection *connections;
static pthread_mutex_t connections_lock = PTHREAD_MUTEX_INITIALIZER;

/* Whether a connection is still there; at a shutdown none is. nbdkit says so by how a sleep ends, and logs each that ends early: so one
   that has gone is not asked about again. */
static bool is_there(struct waiter *waiter)
{
  struct connection *connection = (struct connection *)waiter;
  pthread_mutex_lock(&connection->lock);
  connection->has_gone = connection->has_gone || (nbdkit_nanosleep(0, 0) == -1 && errno == ESHUTDOWN);
  bool has_gone = connection->has_gone;
  pthread_mutex_unlock(&connection->lock);
  return !has_gone;
}

/* Whether a connection is known to have gone. */
static bool is_gone(struct connection *connection)
{
  pthread_mutex_lock(&connection->lock);
  bool has_gone = connection->has_gone;
  pthread_mutex_unlock(&connection->lock);
  return has_gone;
}

/* ---- doors

   nbdkit 1.32 aborts if one thread fails to answer, since the connection is broken, when another is about to answer there. So once a
   connection has gone its requests end one after the other: a thread holds the door while it answers, until it has ended, or has read
   a further request. nbdkit joins the threads of a connection, but not the one that opened it; that one has the requests itself if no
   other thread has. The first one waits for a while before it answers, since a thread that reads, or one whose request was done, may be
   about to find that the connection is broken.

   Whoever holds the door may wait for another that waits for it, if a filter before this one holds a lock during its requests, and it
   does not answer at all if it is a thread of such a filter. So a door that nobody passes for two seconds is not waited for any more:
   that is for so many looks, since on a busy machine whoever holds it may not run for as long. */

#define DOOR_LOOKS 40
#define LOOK 50000000u /* nanoseconds */

/* The connection whose door a thread holds. */
static pthread_key_t held_door;

static void open_door(void *argument)
{
  struct connection *connection = argument;
  pthread_mutex_lock(&connection->lock);
  connection->is_held = false;
  pthread_cond_signal(&connection->opens);
  pthread_mutex_unlock(&connection->lock);
}

/* Waits, with the lock, until a thread has passed the door, or for the time of a look. */
static void await_look(struct connection *connection)
{
  struct timespec until;
  clock_gettime(CLOCK_MONOTONIC, &until);
  uint64_t nanos = (uint64_t)until.tv_nsec + LOOK;
  until.tv_sec += (time_t)(nanos / 1000000000);
  until.tv_nsec = (long)(nanos % 1000000000);
  pthread_cond_timedwait(&connection->opens, &connection->lock, &until);
}

/* Waits, with the lock, until nobody holds the door, or it is stuck. */
static void await_door(struct connection *connection)
{
  unsigned passed = connection->passed, looks = 0;
  while (connection->is_held && !connection->is_stuck) {
    await_look(connection);
    looks = connection->passed == passed ? looks + 1 : 0;
    passed = connection->passed;
    if (connection->is_held && looks == DOOR_LOOKS)
      connection->is_stuck = true;
  }
}

static void hold_door(struct connection *connection)
{
  if (pthread_equal(pthread_self(), connection->opener))
    return;
  pthread_mutex_lock(&connection->lock);
  await_door(connection);
  if (!connection->is_stuck && !pthread_setspecific(held_door, connection)) {
    connection->is_held = true;
    if (!connection->passed++)
      await_look(connection);
  }
  pthread_mutex_unlock(&connection->lock);
}

/* Gives up the door that the thread holds, if it holds one. */
static void leave_door(void)
{
  void *connection = pthread_getspecific(held_door);
  if (!connection)
    return;
  pthread_setspecific(held_door, NULL);
  open_door(connection);
}

/* ---- the handles of connections */

static void list_connection(struct connection *connection)
{
  pthread_mutex_lock(&connections_lock);
  connection->link = &connections;
  connection->next = connections;
  if (connection->next)
    connection->next->link = &connection->next;
  connections = connection;
  pthread_mutex_unlock(&connections_lock);
}

static void unlist_connection(struct connection *connection)
{
  pthread_mutex_lock(&connections_lock);
  *connection->link = connection->next;
  if (connection->next)
    connection->next->link = connection->link;
  pthread_mutex_unlock(&connections_lock);
}

/* None of these calls can fail, of what is within a process. */
static void init_door(struct connection *connection)
{
  pthread_condattr_t by_clock;
  pthread_condattr_init(&by_clock);
  pthread_condattr_setclock(&by_clock, CLOCK_MONOTONIC);
  pthread_cond_init(&connection->opens, &by_clock);
  pthread_condattr_destroy(&by_clock);
  pthread_mutex_init(&connection->lock, NULL);
}

/* A connection of a client, which is released with it; if there is no memory for it, at once. */
static struct connection *new_connection(struct client *client)
{
  struct connection *connection = calloc(1, sizeof *connection);
  if (!connection) {
    gate_release(&gate, client);
    return NULL;
  }
  connection->waiter.is_wanted = is_there;
  connection->client = client;
  connection->opener = pthread_self();
  init_door(connection);
  list_connection(connection);
  return connection;
}

static void free_connection(struct connection *connection)
{
  unlist_connection(connection);
  pthread_mutex_destroy(&connection->lock);
  pthread_cond_destroy(&connection->opens);
  gate_release(&gate, connection->client);
  free(connection);
}

/* ---- the start */

static int dmclock_config(nbdkit_next_config *next, nbdkit_backend *backend, const char *key, const char *value)
{
  int read = settings_read(&given, key, value);
  return read == 0 ? next(backend, key, value) : read < 0 ? -1 : 0;
}

/* The settings of the command line and of the file. */
static bool load(struct settings *all)
{
  if (!settings_copy(&given, all)) {
    nbdkit_error("dmclock: %s", strerror(ENOMEM));
    return false;
  }
  bool is_read = settings_read_file(all) && settings_find_rates(all);
  if (!is_read)
    settings_free(all);
  return is_read;
}

/* When the file was written last, as far as a change shows. */
static struct stat last_written;

/* Whether the file was written since this was asked last. */
static bool is_written(void)
{
  struct stat now;
  if (stat(given.config, &now) == -1)
    return false;
  bool is_same = now.st_mtim.tv_sec == last_written.st_mtim.tv_sec && now.st_mtim.tv_nsec == last_written.st_mtim.tv_nsec &&
                 now.st_ino == last_written.st_ino && now.st_size == last_written.st_size;
  last_written = now;
  return !is_same;
}

static int dmclock_config_complete(nbdkit_next_config_complete *next, nbdkit_backend *backend)
{
  if (given.config)
    is_written();
  return load(&settings) && settings_agree(&settings) && settings_can_write(&settings) ? next(backend) : -1;
}

/* Ends the start with an error of ours. */
static int is_failed(const char *what, int fault)
{
  char printable[PRINTABLE_SIZE];
  nbdkit_error("dmclock: %s: %s", text_printable(what, printable), strerror(fault));
  return -1;
}

static int register_clients(void)
{
  for (const struct client_setting *setting = settings.clients; setting; setting = setting->next) {
    struct client *client;
    int fault = gate_client(&gate, setting->name, &setting->rates.found, true, &client);
    if (fault)
      return is_failed(setting->name, fault);
    gate_release(&gate, client);
  }
  return 0;
}

/* Listens for those who read the metrics, if they are served at a socket: before nbdkit is in the background, so that who starts it learns
   why that can't be. */
static bool listen_for_readers(void)
{
  const char *path = settings_metrics_socket(&settings);
  const char *reason = path ? serve_open(&served, path) : NULL;
  if (reason)
    settings_refuse(&settings, KEY_METRICS, settings.metrics, reason);
  return !reason;
}

static int dmclock_get_ready(int thread_model)
{
  if (thread_model != NBDKIT_THREAD_MODEL_PARALLEL) {
    nbdkit_error("dmclock: the plugin and the filters must take requests in parallel, else they never wait here");
    return -1;
  }
  int fault = pthread_key_create(&held_door, open_door);
  if (!fault)
    fault = gate_open(&gate, &settings.gate);
  if (fault)
    return is_failed("the queue", fault);
  if (register_clients() == -1 || !listen_for_readers())
    return -1;
  settings_log(&settings);
  return 0;
}

/* ---- the file of the settings, read again */

/* Whether somebody has sent SIGHUP, which all threads block: nbdkit would end at it. */
static bool is_asked(void)
{
  sigset_t hangup;
  sigemptyset(&hangup);
  sigaddset(&hangup, SIGHUP);
  return sigtimedwait(&hangup, NULL, &(struct timespec){0}) == SIGHUP;
}

static void block_hangup(void)
{
  sigset_t hangup;
  sigemptyset(&hangup);
  sigaddset(&hangup, SIGHUP);
  pthread_sigmask(SIG_BLOCK, &hangup, NULL);
}

/* Whether the file is to be read again. Both questions are asked, since each is true once. */
static bool is_changed(void)
{
  bool is_wanted = is_asked();
  return is_written() || is_wanted;
}

/* Gives a client other rates. */
static void change(const char *name, const struct rates *rates, bool is_kept)
{
  int fault = gate_change(&gate, name, rates, is_kept);
  if (fault)
    is_failed(name, fault);
}

/* The gate gets these settings in place of others. A client that is in the settings no more is one of the other names. */
static void change_gate(const struct settings *now, const struct settings *before)
{
  gate_resize(&gate, now->gate.depth, now->gate.most_others);
  for (const struct client_setting *client = before->clients; client; client = client->next)
    if (!settings_have(now, client->name))
      change(client->name, now->has_default ? &now->others.found : &client->rates.found, false);
  if (now->has_default)
    gate_change_others(&gate, &now->others.found);
  for (const struct client_setting *client = now->clients; client; client = client->next)
    change(client->name, &client->rates.found, true);
}

/* Reads the file again. If anything is wrong with it, all stays as it was. */
static void read_again(void)
{
  struct settings fresh;
  if (!load(&fresh))
    return;
  if (!settings_agree(&fresh) || !settings_may_follow(&fresh, &settings)) {
    settings_free(&fresh);
    return;
  }
  pthread_mutex_lock(&settings_lock);
  struct settings before = settings;
  settings = fresh;
  change_gate(&settings, &before);
  pthread_mutex_unlock(&settings_lock);
  settings_free(&before);
  char printable[PRINTABLE_SIZE];
  nbdkit_error("dmclock: %s is read again, and its settings hold", text_printable(settings.config, printable));
  settings_log(&settings);
}

/* ---- the watcher */

/* A fault of a file is logged when it comes, and not every second. */
static void report_to(const struct report *report, void (*put)(FILE *, const struct report *), const char *key, const char *path,
                      int *last_fault)
{
  int fault = path ? report_write(report, put, path) : 0;
  if (fault && fault != *last_fault)
    nbdkit_error("%s=%s: %s", key, path, strerror(fault));
  *last_fault = fault;
}

/* If memory is short, the files stay as they are until the next second. */
static void write_reports(void)
{
  static int stats_fault, metrics_fault;
  struct report report;
  const char *metrics = settings_metrics_file(&settings);
  if (!settings.stats && !metrics)
    return;
  if (report_take(&gate, &report)) {
    report_to(&report, stats_put, "dmclock-stats", settings.stats, &stats_fault);
    report_to(&report, metrics_put, "dmclock-metrics", metrics, &metrics_fault);
  }
  report_free(&report);
}

/* The metrics as they are now, for a reader. */
static char *metrics_text(size_t *length)
{
  struct report report;
  char *text = report_take(&gate, &report) ? report_text(&report, metrics_put, length) : NULL;
  report_free(&report);
  return text;
}

/* Logs the first request that the queue refused as it should refuse none. Others are counted alone, lest they fill the log. */
static void log_refusal(void)
{
  static bool is_logged;
  pthread_mutex_lock(&gate.lock);
  uint32_t code = gate.refusal;
  pthread_mutex_unlock(&gate.lock);
  if (code != DMC_OK && !is_logged)
    nbdkit_error("dmclock: the queue refuses a request with its code %u: it ends with an error, and further ones are only counted", code);
  is_logged = code != DMC_OK;
}

/* Logs why the gate grants nothing any more, if that is no shutdown. */
static void log_stop(void)
{
  pthread_mutex_lock(&gate.lock);
  const char *reason = gate.reason;
  pthread_mutex_unlock(&gate.lock);
  if (reason)
    nbdkit_error("dmclock: %s: from now on each request ends with an error", reason);
}

/* Works each second until the gate is stopped. A sleep of nbdkit would end at a shutdown with a line in the log. Those who wait for a
   grant look for one themselves, and the gate is stopped once nobody is in it. */
static void *watch(void *unused)
{
  bool is_stopped = false;
  (void)unused;
  while (!is_stopped) {
    is_stopped = gate_await_stop(&gate, 1000000000);
    log_refusal();
    if (is_stopped)
      log_stop();
    else if (given.config && is_changed())
      read_again();
    write_reports();
  }
  return NULL;
}

static int dmclock_after_fork(nbdkit_backend *backend)
{
  (void)backend;
  if (given.config)
    block_hangup();
  int fault = gate_start(&gate);
  if (fault)
    return is_failed("the timer", fault);
  fault = pthread_create(&watcher, NULL, watch, NULL);
  if (fault)
    return is_failed("the watcher", fault);
  has_watcher = true;
  fault = served.is_open ? serve_start(&served, metrics_text) : 0;
  return fault ? is_failed("the metrics", fault) : 0;
}

static void dmclock_cleanup(nbdkit_backend *backend)
{
  (void)backend;
  gate_stop(&gate, ESHUTDOWN);
  if (has_watcher)
    pthread_join(watcher, NULL);
  serve_close(&served);
  while (connections)
    free_connection(connections);
  gate_close(&gate);
  pthread_key_delete(held_door);
}

static void dmclock_unload(void)
{
  settings_free(&given);
  settings_free(&settings);
}

/* ---- names */

/* Why a name is no client. */
static void log_unknown(const char *name, int fault)
{
  char printable[PRINTABLE_SIZE];
  nbdkit_error("dmclock: no client \"%s\": %s", text_printable(name, printable),
               fault == ENOENT  ? "no dmclock-client and no dmclock-default is for it"
               : fault == EBUSY ? "there are dmclock-default-clients other names already"
                                : strerror(fault));
}

static int add_names(struct nbdkit_exports *exports)
{
  for (const struct client_setting *client = settings.clients; client; client = client->next)
    if (nbdkit_add_export(exports, client->name, NULL) == -1)
      return -1;
  return 0;
}

static int dmclock_list_exports(nbdkit_next_list_exports *next, nbdkit_backend *backend, int readonly, int is_tls, struct nbdkit_exports *exports)
{
  (void)is_tls;
  pthread_mutex_lock(&settings_lock);
  int result = add_names(exports);
  bool has_others = settings.has_default;
  pthread_mutex_unlock(&settings_lock);
  return result == 0 && has_others ? next(backend, readonly, exports) : result;
}

/* Without a default, who names no export is the first client. */
static const char *dmclock_default_export(nbdkit_next_default_export *next, nbdkit_backend *backend, int readonly, int is_tls)
{
  (void)is_tls;
  pthread_mutex_lock(&settings_lock);
  bool is_first = !settings.has_default && settings.clients;
  const char *name = is_first ? nbdkit_strdup_intern(settings.clients->name) : NULL;
  pthread_mutex_unlock(&settings_lock);
  return is_first ? name : next(backend, readonly);
}

/* ---- connections that come and go */

/* The client of a name, for one more user. */
static int client_of(const char *name, struct client **client)
{
  pthread_mutex_lock(&settings_lock);
  bool is_known = settings_have(&settings, name);
  const char *wanted = settings.is_shared && !is_known ? SHARED_NAME : name;
  const struct rates *rates = settings.has_default ? &settings.others.found : NULL;
  int fault = is_known || rates ? gate_client(&gate, wanted, rates, false, client) : ENOENT;
  pthread_mutex_unlock(&settings_lock);
  return fault;
}

static void *dmclock_open(nbdkit_next_open *next, nbdkit_context *context, int readonly, const char *name, int is_tls)
{
  (void)is_tls;
  struct client *client;
  int fault = client_of(name, &client);
  if (fault) {
    log_unknown(name, fault);
    return NULL;
  }
  struct connection *connection = new_connection(client);
  if (!connection) {
    is_failed(name, ENOMEM);
    return NULL;
  }
  if (next(context, readonly, name) == -1) {
    free_connection(connection);
    return NULL;
  }
  return connection;
}

static void dmclock_close(void *handle)
{
  free_connection(handle);
}

/* ---- requests */

/* Waits for the grant of a request for so many bytes, and returns 0; the device's answer must then be followed by `leave`. Else -1, and
   sets err. A connection may go while its request waits: then the device is not called. */
static int enter(struct connection *connection, uint32_t bytes, int *err)
{
  leave_door();
  int fault = gate_enter(&gate, connection->client, bytes, &connection->waiter);
  *err = fault == ECANCELED ? ESHUTDOWN : fault;
  if (*err == ESHUTDOWN)
    hold_door(connection);
  return fault ? -1 : 0;
}

static int leave(struct connection *connection, int result)
{
  if (result == -1)
    gate_leave_failed(&gate, connection->client);
  else
    gate_leave(&gate);
  if (is_gone(connection))
    hold_door(connection);
  return result;
}

static int dmclock_pread(nbdkit_next *next, void *connection, void *buffer, uint32_t count, uint64_t offset, uint32_t flags, int *err)
{
  return enter(connection, count, err) ? -1 : leave(connection, next->pread(next, buffer, count, offset, flags, err));
}

static int dmclock_pwrite(nbdkit_next *next, void *connection, const void *buffer, uint32_t count, uint64_t offset, uint32_t flags,
                          int *err)
{
  return enter(connection, count, err) ? -1 : leave(connection, next->pwrite(next, buffer, count, offset, flags, err));
}

static int dmclock_flush(nbdkit_next *next, void *connection, uint32_t flags, int *err)
{
  return enter(connection, 0, err) ? -1 : leave(connection, next->flush(next, flags, err));
}

static int dmclock_trim(nbdkit_next *next, void *connection, uint32_t count, uint64_t offset, uint32_t flags, int *err)
{
  return enter(connection, count, err) ? -1 : leave(connection, next->trim(next, count, offset, flags, err));
}

static int dmclock_zero(nbdkit_next *next, void *connection, uint32_t count, uint64_t offset, uint32_t flags, int *err)
{
  return enter(connection, count, err) ? -1 : leave(connection, next->zero(next, count, offset, flags, err));
}

static int dmclock_extents(nbdkit_next *next, void *connection, uint32_t count, uint64_t offset, uint32_t flags,
                           struct nbdkit_extents *extents, int *err)
{
  return enter(connection, 0, err) ? -1 : leave(connection, next->extents(next, count, offset, flags, extents, err));
}

/* A filter before this one may give no place for an error, as nbdkit's readahead does, and nbdkit then fails at one. Nothing has to be
   cached, so there is none. */
static int dmclock_cache(nbdkit_next *next, void *connection, uint32_t count, uint64_t offset, uint32_t flags, int *err)
{
  int fault = 0;
  int result = enter(connection, count, &fault) ? -1 : leave(connection, next->cache(next, count, offset, flags, &fault));
  if (!err)
    return 0;
  *err = fault;
  return result;
}

static struct nbdkit_filter filter = {
  .name = "dmclock",
  .longname = "nbdkit dmClock filter",
  .description = "Gives each client a reservation, a limit and a share of the rest.",
  .config_help =
    "dmclock-client=NAME:RESERVATION:WEIGHT:LIMIT  A client's rates, in requests or, as 10MiB/s, bytes a second, - for none.\n"
    "dmclock-default=RESERVATION:WEIGHT:LIMIT      The rates of each other name; without it they are refused.\n"
    "dmclock-default-clients=N                     How many other names there may be at once (default 1000).\n"
    "dmclock-default-shared=true|false             Whether all other names are one client (default false).\n"
    "dmclock-unit=BYTES                            A request costs 1 for each unit of bytes (default 0: each costs 1).\n"
    "dmclock-depth=N                               How many requests the device has at once (default 4).\n"
    "dmclock-at-limit=wait|allow|reject:MS         A client at its limit waits (default), gets what is left, or is refused what would wait longer.\n"
    "dmclock-shares=virtual|clock                  Shares are compared in virtual time (default), or by the clock, as mClock does.\n"
    "dmclock-idle=SECONDS                          Without a request for so long, a client is idle (default 5).\n"
    "dmclock-erase=SECONDS                         Without a request for so long, one of the default is forgotten (default 900).\n"
    "dmclock-capacity=N                            Warn if the reservations are more a second than this.\n"
    "dmclock-stats=FILE                            A line of JSON a client, every second.\n"
    "dmclock-metrics=FILE|unix:PATH                The same for Prometheus, in a file or over a Unix socket.\n"
    "dmclock-config=FILE                           Further settings, one a line, read again if they change.",
  .unload = dmclock_unload,
  .config = dmclock_config,
  .config_complete = dmclock_config_complete,
  .get_ready = dmclock_get_ready,
  .after_fork = dmclock_after_fork,
  .cleanup = dmclock_cleanup,
  .list_exports = dmclock_list_exports,
  .default_export = dmclock_default_export,
  .open = dmclock_open,
  .close = dmclock_close,
  .pread = dmclock_pread,
  .pwrite = dmclock_pwrite,
  .flush = dmclock_flush,
  .trim = dmclock_trim,
  .zero = dmclock_zero,
  .extents = dmclock_extents,
  .cache = dmclock_cache,
};

NBDKIT_REGISTER_FILTER(filter)
