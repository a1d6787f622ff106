/* What the parts of the module share that know nginx: the zones of a node, the trackers of a front, and how directives are read. */
#ifndef DMCLOCK_MODULE_H
#define DMCLOCK_MODULE_H

#include <ngx_config.h>
#include <ngx_core.h>
#include <ngx_event.h>
#include <ngx_http.h>

#include "stamp.h"
#include "tenants.h"
#include "zone.h"

extern ngx_module_t ngx_http_dmclock_module;       /* a node's queues, and the status */
extern ngx_module_t ngx_http_dmclock_track_module; /* a front's trackers */
extern ngx_module_t ngx_dmclock_check_module;      /* compares settings of different parts of the file */

/* Whether a text is this word. */
static inline bool is_word(const ngx_str_t *text, const char *word)
{
  return text->len == strlen(word) && memcmp(text->data, word, text->len) == 0;
}

/* Whether the name of a header, in lower case, begins as those of stamps do: few do, and no more of the others is looked at. */
static inline bool is_stamp_header(const ngx_str_t *name)
{
  size_t length = sizeof STAMP_HEADERS - 1;
  return name->len > length && memcmp(name->data, STAMP_HEADERS, length) == 0;
}

/* The longest name of a client or a tenant, with its end. */
#define NAME_SIZE 256

/* Makes a text of C of a name, of its length and a byte more, at most NAME_SIZE. False if it is too long, or has a byte 0. */
bool name_copy(const ngx_str_t *name, char *text);

/* ---- directives */

/* One of a directive's parameters: NAME=, which a value follows, or a word. */
struct param {
  const char *name;
  char *(*set)(ngx_conf_t *, void *where, const ngx_str_t *word, const ngx_str_t *value);
};

/* Reads the words of a directive from one on, each at most once. `params` ends with a name of NULL. */
char *params_read(ngx_conf_t *, ngx_uint_t from, const struct param *params, void *where);

/* An error that names the directive, its word, and what is wanted instead. */
char *params_bad(ngx_conf_t *, const ngx_str_t *word, const char *wanted);

/* A number from 1 to `most`. */
char *params_number(ngx_conf_t *, const ngx_str_t *word, const ngx_str_t *value, uint32_t most, uint32_t *number);

/* A time, in nanoseconds. */
char *params_time(ngx_conf_t *, const ngx_str_t *word, const ngx_str_t *value, uint64_t *nanos);

/* A text of C, in the memory of the configuration. NULL if memory is short. */
char *text_of(ngx_conf_t *, const ngx_str_t *text);

/* A text with variables. If it is one variable and nothing else, as a key mostly is, the text of a request is that variable's value, and
   is not copied: that takes half as long. */
struct request_text {
  ngx_http_complex_value_t value;
  ngx_int_t variable;         /* its index; NGX_ERROR if the text is anything else */
};

/* Reads such a text: a word of a directive. */
char *request_text_read(ngx_conf_t *, ngx_str_t *word, struct request_text *);

/* Whether it has no variables. */
bool request_text_is_fixed(const struct request_text *);

/* The text of a request. False if memory is short. */
bool request_text_of(ngx_http_request_t *, struct request_text *, ngx_str_t *text);

/* ---- a node */

/* A client of the settings. */
struct client_setting {
  ngx_str_node_t node; /* of a tree by name */
  char *name;
  struct rates rates;
  uint32_t queue;             /* how many of its requests wait at most; 0 if that is the zone's client_queue */
};

/* A zone with its settings. */
struct node_zone {
  ngx_str_t name;
  struct request_text key;
  struct zone_config config;
  bool has_queue;             /* queue= is given */
  bool is_per_worker;         /* each worker has a queue of its own, and that is known */
  ngx_array_t clients;        /* struct client_setting * */
  ngx_rbtree_t names;
  ngx_rbtree_node_t sentinel;
  bool has_others, is_shared; /* whether other names are clients, and whether all of them are one */
  struct rates others;
  uint32_t others_queue;      /* of each of them, as of a client */
  /* of a worker */
  struct zone zone;
  uint64_t start;             /* when the zone was opened */
  struct client *shared;      /* of all other names */
  ngx_event_t timer;
  uint64_t timer_at;          /* when it fires, if it is set */
  ngx_connection_t identity;  /* what the timer's event belongs to, for nginx's debug log */
};

struct node_main {
  ngx_array_t zones;          /* struct node_zone * */
};

enum status_format { STATUS_NONE, STATUS_PROMETHEUS, STATUS_JSON };

struct cost_setting;

struct node_location {
  struct node_zone *zone;     /* NULL if there is none */
  ngx_flag_t read_body;
  ngx_uint_t reject;          /* the status of a request that is refused */
  ngx_array_t *trust;         /* ngx_cidr_t: whose stamps count */
  struct cost_setting *cost;  /* of requests; NULL if each costs 1 */
  enum status_format status;  /* of its page, if it is one */
};

/* The directives of a node's settings. */
char *zone_directive(ngx_conf_t *, ngx_command_t *, void *);
char *client_directive(ngx_conf_t *, ngx_command_t *, void *);
char *clients_directive(ngx_conf_t *, ngx_command_t *, void *);
char *default_directive(ngx_conf_t *, ngx_command_t *, void *);
char *use_directive(ngx_conf_t *, ngx_command_t *, void *);
char *reject_directive(ngx_conf_t *, ngx_command_t *, void *);
char *trust_directive(ngx_conf_t *, ngx_command_t *, void *);
char *cost_directive(ngx_conf_t *, ngx_command_t *, void *);

/* What a request costs by the settings of its location: 1 if they say nothing, or if the text is no number. */
uint32_t request_cost(ngx_http_request_t *);

/* Whether the zones agree with each other and with what is set elsewhere, after an error that says which does not. */
bool zones_agree(ngx_conf_t *, const struct node_main *);

/* ---- a front */

/* A tracker with its settings. */
struct front_tracker {
  ngx_str_t name;
  struct request_text key;
  ngx_array_t servers;        /* ngx_addr_t */
  struct tenants tenants;     /* of a worker */
};

struct front_main {
  ngx_array_t trackers;       /* struct front_tracker * */
  ngx_array_t upstreams;      /* ngx_http_upstream_srv_conf_t *, those with a tracker */
};

/* Takes what is said of stamps from a response's headers. */
void drop_reports(ngx_http_request_t *);

/* ---- the status */

char *status_directive(ngx_conf_t *, ngx_command_t *, void *);

#endif
