/* The directives of a node. */
#include "module.h"

#include "clock.h"
#include "rates.h"

/* What a zone has if no parameter says otherwise. */
#define QUEUED 10000
#define PARTS 4 /* of the queue, of which a client has one: none keeps all others out */
#define IDLE (5 * (uint64_t)SECOND)
#define ERASE (900 * (uint64_t)SECOND)
#define OTHERS 1000

/* The client of all other names, if they share one. */
#define SHARED_NAME "dmclock-default"

#define MOST_DEPTH (1u << 20)

/* ---- dmclock_zone NAME KEY depth=N .. */

static char *set_depth(ngx_conf_t *cf, void *zone, const ngx_str_t *word, const ngx_str_t *value)
{
  return params_number(cf, word, value, MOST_DEPTH, &((struct node_zone *)zone)->config.depth);
}

static char *set_queue(ngx_conf_t *cf, void *where, const ngx_str_t *word, const ngx_str_t *value)
{
  struct node_zone *zone = where;
  zone->has_queue = true;
  return params_number(cf, word, value, MOST_QUEUED, &zone->config.most_queued);
}

static char *set_client_queue(ngx_conf_t *cf, void *zone, const ngx_str_t *word, const ngx_str_t *value)
{
  return params_number(cf, word, value, MOST_QUEUED, &((struct node_zone *)zone)->config.most_of_client);
}

static char *set_timeout(ngx_conf_t *cf, void *zone, const ngx_str_t *word, const ngx_str_t *value)
{
  return params_time(cf, word, value, &((struct node_zone *)zone)->config.timeout);
}

static char *set_idle(ngx_conf_t *cf, void *zone, const ngx_str_t *word, const ngx_str_t *value)
{
  return params_time(cf, word, value, &((struct node_zone *)zone)->config.idle);
}

static char *set_erase(ngx_conf_t *cf, void *zone, const ngx_str_t *word, const ngx_str_t *value)
{
  return params_time(cf, word, value, &((struct node_zone *)zone)->config.erase);
}

/* wait, allow, reject, or reject: and a time */
static char *set_at_limit(ngx_conf_t *cf, void *where, const ngx_str_t *word, const ngx_str_t *value)
{
  static const char reject[] = "reject:";
  struct zone_config *config = &((struct node_zone *)where)->config;
  size_t length = sizeof reject - 1;
  config->at_limit = is_word(value, "wait") ? DMC_WAIT : is_word(value, "allow") ? DMC_ALLOW : DMC_REJECT;
  if (config->at_limit != DMC_REJECT || is_word(value, "reject"))
    return NGX_CONF_OK;
  if (value->len < length || memcmp(value->data, reject, length) != 0)
    return params_bad(cf, word, "wait, allow, reject or reject:TIME");
  ngx_str_t time = {value->len - length, value->data + length};
  return params_time(cf, word, &time, &config->threshold);
}

static char *set_shares(ngx_conf_t *cf, void *where, const ngx_str_t *word, const ngx_str_t *value)
{
  struct node_zone *zone = where;
  if (!is_word(value, "virtual") && !is_word(value, "clock"))
    return params_bad(cf, word, "virtual or clock");
  zone->config.shares = is_word(value, "virtual") ? DMC_VIRTUAL : DMC_CLOCK;
  return NGX_CONF_OK;
}

static char *set_per_worker(ngx_conf_t *cf, void *where, const ngx_str_t *word, const ngx_str_t *value)
{
  struct node_zone *zone = where;
  zone->is_per_worker = true;
  return NGX_CONF_OK;
}

static const struct param zone_params[] = {
  {"depth=", set_depth},       {"queue=", set_queue},   {"client_queue=", set_client_queue}, {"timeout=", set_timeout},
  {"at_limit=", set_at_limit}, {"shares=", set_shares}, {"idle=", set_idle},                 {"erase=", set_erase},
  {"per_worker", set_per_worker}, {NULL, NULL},
};

static struct node_zone *find_zone(const struct node_main *node, const ngx_str_t *name)
{
  struct node_zone **zones = node->zones.elts;
  for (ngx_uint_t i = 0; i < node->zones.nelts; i++)
    if (zones[i]->name.len == name->len && memcmp(zones[i]->name.data, name->data, name->len) == 0)
      return zones[i];
  return NULL;
}

static struct node_zone *new_zone(ngx_conf_t *cf, struct node_main *node, const ngx_str_t *name)
{
  struct node_zone *zone = ngx_pcalloc(cf->pool, sizeof *zone), **kept = ngx_array_push(&node->zones);
  if (!zone || !kept || ngx_array_init(&zone->clients, cf->pool, 8, sizeof(struct client_setting *)) != NGX_OK)
    return NULL;
  *kept = zone;
  zone->name = *name;
  zone->config = (struct zone_config){.name = text_of(cf, name), .at_limit = DMC_WAIT, .shares = DMC_VIRTUAL, .timeout = NEVER,
                                      .most_queued = QUEUED, .most_others = OTHERS};
  ngx_rbtree_init(&zone->names, &zone->sentinel, ngx_str_rbtree_insert_value);
  return zone->config.name ? zone : NULL;
}

/* Fills in what depends on other parameters, and refuses what does not agree. */
static char *complete_zone(ngx_conf_t *cf, struct node_zone *zone)
{
  struct zone_config *config = &zone->config;
  if (!config->depth)
    return params_bad(cf, &zone->name, "depth=N, the requests that the device serves at once");
  if (!config->most_of_client)
    config->most_of_client = config->most_queued < PARTS ? 1 : config->most_queued / PARTS;
  if (config->most_of_client > config->most_queued)
    return params_bad(cf, &zone->name, "a client_queue that is not past the queue");
  if (!config->erase)
    config->erase = config->idle > ERASE ? config->idle : ERASE;
  if (!config->idle)
    config->idle = config->erase < IDLE ? config->erase : IDLE;
  if (config->erase < config->idle)
    return params_bad(cf, &zone->name, "an idle time that is not past the erase time");
  return NGX_CONF_OK;
}

char *zone_directive(ngx_conf_t *cf, ngx_command_t *command, void *main)
{
  ngx_str_t *words = cf->args->elts;
  if (words[1].len == 0 || is_word(&words[1], "off") || find_zone(main, &words[1]))
    return params_bad(cf, &words[1], "a name that no other zone has, and not off");
  struct node_zone *zone = new_zone(cf, main, &words[1]);
  if (!zone || request_text_read(cf, &words[2], &zone->key) != NGX_CONF_OK || params_read(cf, 3, zone_params, zone) != NGX_CONF_OK)
    return NGX_CONF_ERROR;
  return complete_zone(cf, zone);
}

/* ---- rates */

/* What a directive says of clients. */
struct rates_setting {
  struct rates asked;
  uint32_t queue; /* how many of its requests wait, or 0 */
  uint32_t most;  /* clients, or 0 */
  bool is_shared;
};

static char *set_reservation(ngx_conf_t *cf, void *setting, const ngx_str_t *word, const ngx_str_t *value)
{
  return params_number(cf, word, value, DMC_FINE_HZ, &((struct rates_setting *)setting)->asked.reservation);
}

static char *set_weight(ngx_conf_t *cf, void *setting, const ngx_str_t *word, const ngx_str_t *value)
{
  return params_number(cf, word, value, MOST_WEIGHT, &((struct rates_setting *)setting)->asked.weight);
}

static char *set_limit(ngx_conf_t *cf, void *setting, const ngx_str_t *word, const ngx_str_t *value)
{
  return params_number(cf, word, value, UINT32_MAX, &((struct rates_setting *)setting)->asked.limit);
}

static char *set_waiting(ngx_conf_t *cf, void *setting, const ngx_str_t *word, const ngx_str_t *value)
{
  return params_number(cf, word, value, MOST_QUEUED, &((struct rates_setting *)setting)->queue);
}

static char *set_clients(ngx_conf_t *cf, void *setting, const ngx_str_t *word, const ngx_str_t *value)
{
  return params_number(cf, word, value, MOST_CLIENTS, &((struct rates_setting *)setting)->most);
}

static char *set_shared(ngx_conf_t *cf, void *where, const ngx_str_t *word, const ngx_str_t *value)
{
  struct rates_setting *setting = where;
  setting->is_shared = true;
  return NGX_CONF_OK;
}

static const struct param client_params[] = {
  {"reservation=", set_reservation}, {"weight=", set_weight}, {"limit=", set_limit}, {"queue=", set_waiting}, {NULL, NULL},
};

static const struct param default_params[] = {
  {"reservation=", set_reservation}, {"weight=", set_weight}, {"limit=", set_limit}, {"queue=", set_waiting},
  {"clients=", set_clients}, {"shared", set_shared}, {NULL, NULL},
};

static void say_rate(ngx_conf_t *cf, const ngx_str_t *name, const char *rate, uint32_t asked, uint32_t found)
{
  if (asked != found)
    ngx_conf_log_error(NGX_LOG_NOTICE, cf, 0, "the %s %uD of \"%V\" is taken as %uD", rate, asked, name, found);
}

/* The rates that the queue has for those that are asked. The log says which are others. */
static char *round_rates(ngx_conf_t *cf, const ngx_str_t *name, const struct rates *asked, struct rates *found)
{
  if (asked->limit && asked->limit < asked->reservation)
    return params_bad(cf, name, "a reservation that is not above the limit");
  if (!rates_round(asked, found))
    return params_bad(cf, name, "rates that the queue has");
  say_rate(cf, name, "reservation", asked->reservation, found->reservation);
  say_rate(cf, name, "weight", asked->weight, found->weight);
  say_rate(cf, name, "limit", asked->limit, found->limit);
  return NGX_CONF_OK;
}

/* Reads what is said of clients of a zone, from a word on. A weight that is not given is 1. */
static char *read_rates(ngx_conf_t *cf, ngx_uint_t from, const struct param *params, const struct node_zone *zone, const ngx_str_t *name,
                        struct rates_setting *setting, struct rates *found)
{
  *setting = (struct rates_setting){0};
  if (params_read(cf, from, params, setting) != NGX_CONF_OK)
    return NGX_CONF_ERROR;
  if (setting->queue > zone->config.most_queued)
    return params_bad(cf, name, "a queue that is not past that of the zone");
  if (!setting->asked.weight)
    setting->asked.weight = 1;
  return round_rates(cf, name, &setting->asked, found);
}

/* ---- dmclock_client ZONE NAME .., dmclock_clients ZONE FILE, dmclock_default ZONE .. */

static struct node_zone *named_zone(ngx_conf_t *cf, const struct node_main *node, const ngx_str_t *name)
{
  struct node_zone *zone = find_zone(node, name);
  if (!zone)
    params_bad(cf, name, "the name of a dmclock_zone that is declared before");
  return zone;
}

/* Adds the client whose name is a word of the line, and whose rates follow it. */
static char *add_client(ngx_conf_t *cf, struct node_zone *zone, ngx_uint_t place)
{
  const ngx_str_t *name = (ngx_str_t *)cf->args->elts + place;
  char text[NAME_SIZE];
  uint32_t hash = ngx_crc32_short(name->data, name->len);
  if (!name_copy(name, text) || is_word(name, SHARED_NAME))
    return params_bad(cf, name, "a name of at most 255 bytes, and not " SHARED_NAME);
  if (ngx_str_rbtree_lookup(&zone->names, (ngx_str_t *)name, hash))
    return params_bad(cf, name, "a name that no other client of the zone has");
  struct client_setting *client = ngx_pcalloc(cf->pool, sizeof *client), **kept = ngx_array_push(&zone->clients);
  if (!client || !kept)
    return NGX_CONF_ERROR;
  *kept = client;
  client->node = (ngx_str_node_t){.node.key = hash, .str = *name};
  client->name = text_of(cf, name);
  ngx_rbtree_insert(&zone->names, &client->node.node);
  struct rates_setting setting;
  if (!client->name || read_rates(cf, place + 1, client_params, zone, name, &setting, &client->rates) != NGX_CONF_OK)
    return NGX_CONF_ERROR;
  client->queue = setting.queue;
  return NGX_CONF_OK;
}

char *client_directive(ngx_conf_t *cf, ngx_command_t *command, void *main)
{
  ngx_str_t *words = cf->args->elts;
  struct node_zone *zone = named_zone(cf, main, &words[1]);
  return zone ? add_client(cf, zone, 2) : NGX_CONF_ERROR;
}

/* A line of a file of clients: NAME and its rates. */
static char *client_line(ngx_conf_t *cf, ngx_command_t *command, void *zone)
{
  return add_client(cf, zone, 0);
}

char *clients_directive(ngx_conf_t *cf, ngx_command_t *command, void *main)
{
  ngx_str_t *words = cf->args->elts, file = words[2];
  struct node_zone *zone = named_zone(cf, main, &words[1]);
  if (!zone || ngx_conf_full_name(cf->cycle, &file, 1) != NGX_OK)
    return NGX_CONF_ERROR;
  ngx_conf_t before = *cf;
  cf->handler = client_line;
  cf->handler_conf = (char *)zone;
  char *result = ngx_conf_parse(cf, &file);
  *cf = before;
  return result;
}

char *default_directive(ngx_conf_t *cf, ngx_command_t *command, void *main)
{
  ngx_str_t *words = cf->args->elts;
  struct node_zone *zone = named_zone(cf, main, &words[1]);
  struct rates_setting setting;
  if (!zone)
    return NGX_CONF_ERROR;
  if (zone->has_others)
    return params_bad(cf, &words[1], "one dmclock_default for each zone");
  if (read_rates(cf, 2, default_params, zone, &words[1], &setting, &zone->others) != NGX_CONF_OK)
    return NGX_CONF_ERROR;
  if (setting.is_shared && setting.most)
    return params_bad(cf, &words[1], "shared, or clients=N");
  zone->has_others = true;
  zone->is_shared = setting.is_shared;
  zone->others_queue = setting.queue;
  if (setting.most)
    zone->config.most_others = setting.most;
  return NGX_CONF_OK;
}

/* ---- dmclock ZONE | off, dmclock_reject CODE, dmclock_trust CIDR.. */

char *use_directive(ngx_conf_t *cf, ngx_command_t *command, void *where)
{
  ngx_str_t *words = cf->args->elts;
  struct node_location *location = where;
  if (location->zone != NGX_CONF_UNSET_PTR)
    return "is duplicate";
  location->zone = NULL;
  if (is_word(&words[1], "off"))
    return NGX_CONF_OK;
  location->zone = named_zone(cf, ngx_http_conf_get_module_main_conf(cf, ngx_http_dmclock_module), &words[1]);
  return location->zone ? NGX_CONF_OK : NGX_CONF_ERROR;
}

char *reject_directive(ngx_conf_t *cf, ngx_command_t *command, void *where)
{
  ngx_str_t *words = cf->args->elts;
  struct node_location *location = where;
  if (location->reject != NGX_CONF_UNSET_UINT)
    return "is duplicate";
  ngx_int_t code = ngx_atoi(words[1].data, words[1].len);
  if (code < 400 || 599 < code)
    return params_bad(cf, &words[1], "a status from 400 to 599");
  location->reject = (ngx_uint_t)code;
  return NGX_CONF_OK;
}

/* Whose stamps count, of one word. */
static char *add_trust(ngx_conf_t *cf, ngx_array_t *trust, ngx_str_t *word)
{
  ngx_cidr_t *cidr = ngx_array_push(trust);
  if (!cidr)
    return NGX_CONF_ERROR;
  memset(cidr, 0, sizeof *cidr);
  if (is_word(word, "unix:")) {
    cidr->family = AF_UNIX;
    return NGX_CONF_OK;
  }
  ngx_int_t result = ngx_ptocidr(word, cidr);
  if (result == NGX_DONE)
    return params_bad(cf, word, "a network whose address has no bits past its length");
  return result == NGX_OK ? NGX_CONF_OK : params_bad(cf, word, "an address, a network such as 10.0.0.0/8, or unix:");
}

char *trust_directive(ngx_conf_t *cf, ngx_command_t *command, void *where)
{
  ngx_str_t *words = cf->args->elts;
  struct node_location *location = where;
  char *result = NGX_CONF_OK;
  if (location->trust == NGX_CONF_UNSET_PTR)
    location->trust = ngx_array_create(cf->pool, 4, sizeof(ngx_cidr_t));
  if (!location->trust)
    return NGX_CONF_ERROR;
  for (ngx_uint_t i = 1; i < cf->args->nelts && result == NGX_CONF_OK; i++)
    result = add_trust(cf, location->trust, &words[i]);
  return result;
}

/* ---- the whole */

static bool zone_agrees(ngx_conf_t *cf, const struct node_zone *zone)
{
  ngx_uint_t others = !zone->has_others ? 0 : zone->is_shared ? 1 : zone->config.most_others;
  if (!zone->has_others && !zone->clients.nelts) {
    ngx_log_error(NGX_LOG_EMERG, cf->log, 0, "dmclock_zone \"%V\" has neither a dmclock_client nor a dmclock_default", &zone->name);
    return false;
  }
  if (zone->clients.nelts + others > MOST_CLIENTS) {
    ngx_log_error(NGX_LOG_EMERG, cf->log, 0, "dmclock_zone \"%V\" has %ui clients and up to %ui others: more than %d together",
                  &zone->name, zone->clients.nelts, others, MOST_CLIENTS);
    return false;
  }
  return true;
}

bool zones_agree(ngx_conf_t *cf, const struct node_main *node)
{
  struct node_zone **zones = node->zones.elts;
  bool agree = true;
  for (ngx_uint_t i = 0; i < node->zones.nelts; i++)
    agree = zone_agrees(cf, zones[i]) && agree;
  return agree;
}

/* A zone's queue is of one process. Several workers have several queues, each with its depth and the limits, which has to be known. */
static char *check_workers(const ngx_cycle_t *cycle, const struct node_zone *zone)
{
  ngx_core_conf_t *core = (ngx_core_conf_t *)ngx_get_conf(cycle->conf_ctx, ngx_core_module);
  if (core->worker_processes <= 1 || zone->is_per_worker)
    return NGX_CONF_OK;
  ngx_log_error(NGX_LOG_EMERG, cycle->log, 0,
                "worker_processes %i: each worker has a queue of its own of dmclock_zone \"%V\", with its depth and its limits: "
                "wanted is worker_processes 1, or per_worker in the dmclock_zone", core->worker_processes, &zone->name);
  return NGX_CONF_ERROR;
}

/* Warns of a queue that is asked for and would never be full, since nginx has no connections for it. It is no error: requests of HTTP/2
   share connections. */
static void check_connections(const ngx_cycle_t *cycle, const struct node_zone *zone)
{
  const ngx_event_conf_t *events = ngx_event_get_conf(cycle->conf_ctx, ngx_event_core_module);
  const struct zone_config *config = &zone->config;
  if (zone->has_queue && events->connections < config->most_queued + config->depth)
    ngx_log_error(NGX_LOG_WARN, cycle->log, 0,
                  "queue=%uD and depth=%uD of dmclock_zone \"%V\" are more than worker_connections %ui: each of these requests is a "
                  "connection, unless it came by HTTP/2, and nginx closes further ones before the queue is full", config->most_queued,
                  config->depth, &zone->name, events->connections);
}

/* What is compared with the zones may come after them in the file, so it is compared at its end. */
static char *check_zones(ngx_cycle_t *cycle, void *unused)
{
  struct node_main *node = ngx_http_cycle_get_module_main_conf(cycle, ngx_http_dmclock_module);
  struct node_zone **zones = node ? node->zones.elts : NULL;
  char *result = NGX_CONF_OK;
  for (ngx_uint_t i = 0; node && i < node->zones.nelts && result == NGX_CONF_OK; i++) {
    check_connections(cycle, zones[i]);
    result = check_workers(cycle, zones[i]);
  }
  return result;
}

static ngx_core_module_t check_context = {ngx_string("dmclock_check"), NULL, check_zones};

static ngx_command_t check_commands[] = {ngx_null_command};

ngx_module_t ngx_dmclock_check_module = {
  NGX_MODULE_V1, &check_context, check_commands, NGX_CORE_MODULE, NULL, NULL, NULL, NULL, NULL, NULL, NULL, NGX_MODULE_V1_PADDING
};
