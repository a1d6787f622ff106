/* The settings of the filter, as its keys give them. */
#ifndef DMCLOCK_SETTINGS_H
#define DMCLOCK_SETTINGS_H

#include "gate.h"

/* A rate as it was typed: so many units of cost a second, or bytes a second. 0 is none. */
struct typed_rate {
  uint64_t number;
  bool is_bytes;
};

/* RESERVATION:WEIGHT:LIMIT as it was typed, in units of cost, and as the queue has it. */
struct rates_setting {
  char *value;                 /* of the key, for errors */
  struct typed_rate reservation, limit;
  uint32_t weight;
  struct rates asked, found;
  unsigned line;               /* of the file that it is in; 0 if it is of the command line */
};

/* A client of dmclock-client=NAME:RESERVATION:WEIGHT:LIMIT. */
struct client_setting {
  char *name;
  struct rates_setting rates;
  struct client_setting *next;
};

enum settings_key {
  KEY_CLIENT, KEY_DEFAULT, KEY_DEFAULT_CLIENTS, KEY_DEFAULT_SHARED, KEY_UNIT, KEY_DEPTH, KEY_AT_LIMIT, KEY_SHARES, KEY_IDLE, KEY_ERASE,
  KEY_CAPACITY, KEY_STATS, KEY_METRICS, KEY_CONFIG, KEYS
};

struct settings {
  struct gate_config gate;
  struct client_setting *clients;
  bool has_default, is_shared; /* whether other names are taken, and whether all of them are one client */
  struct rates_setting others; /* of dmclock-default */
  struct typed_rate capacity;
  char *stats;                 /* a file, or NULL */
  char *metrics;               /* a file, or unix: and the path of a socket, or NULL */
  char *config;                /* a file with further settings, or NULL */
  unsigned line;               /* the line of that file which is read; 0 if none is */
  unsigned lines[KEYS];        /* the last line of that file that has each key; 0 if none does */
};

/* A connection that goes is known to have gone after at most this many nanoseconds, and its requests are cancelled after as many again.
   So its client may be back at once and hardly waits for them; and one thread of each connection with waiting requests wakes ten times
   a second, which takes little time. */
#define SLICE 100000000u

/* What holds if no key says otherwise. */
#define SETTINGS_DEFAULT \
  { .gate = {.depth = 4, .at_limit = DMC_WAIT, .shares = DMC_VIRTUAL, .idle_seconds = 5, .erase_seconds = 900, .most_others = 1000, \
             .slice = SLICE} }

/* Reads a key and its value. Returns 1 if the key is one of the filter, 0 if it is not, and -1 after an error that names the key and
   the value, and says what is wrong with it. */
int settings_read(struct settings *, const char *key, const char *value);

/* Reads the file of the settings, if there is one: a setting a line, KEY=VALUE; an empty line, and one that begins with #, says
   nothing. False after an error that names the line. */
bool settings_read_file(struct settings *);

/* Finds the rates that the queue has for those that were typed, once all settings are read: bytes are counted in dmclock-unit. False
   after an error that names the client, and the line that it is in. */
bool settings_find_rates(struct settings *);

/* Makes a copy that is freed by itself. False if memory is short. */
bool settings_copy(const struct settings *, struct settings *copy);

/* Whether a client of the settings has this name. */
bool settings_have(const struct settings *, const char *name);

/* The client of all other names, if they share one. */
#define SHARED_NAME "dmclock-default"

/* Whether the settings agree with each other, after an error that names those that do not, and the line of the last one. */
bool settings_agree(const struct settings *);

/* The file of the metrics, or the path of the socket that they are served at; NULL if there is none. */
const char *settings_metrics_file(const struct settings *);
const char *settings_metrics_socket(const struct settings *);

/* Says what is wrong with a setting that has this value. */
void settings_refuse(const struct settings *, enum settings_key, const char *value, const char *reason);

/* Whether the files of the statistics and of the metrics can be written, after an error that names one that can't, and why. */
bool settings_can_write(const struct settings *);

/* Whether these settings may take the place of others while the filter runs, after an error that names one that may not change, and its
   line. */
bool settings_may_follow(const struct settings *, const struct settings *others);

/* Logs the rates that became others than were typed, and warns if the reservations are more than the capacity. With -v nbdkit shows the
   other rates, too. */
void settings_log(const struct settings *);

void settings_free(struct settings *);

#endif
