/* A node: requests of a location wait in the queue of its zone until it grants them. */
#include "module.h"

#include "clock.h"
#include "stamp.h"
#include "text.h"

/* The longest time that nginx's timer of a zone is set for. */
#define MOST_MILLIS 3600000u

/* A request of nginx in a zone. */
struct visit {
  struct request request;     /* first, so that a request of the zone is a visit */
  ngx_http_request_t *r;
  struct node_zone *zone;
  ngx_event_t wakes;          /* posted when it is granted or has expired */
  struct dmc_stamp stamp;
  uint64_t retry_after;       /* seconds; 0 if the queue does not say it */
  bool is_stamped;            /* its stamp counts */
  bool is_suspended;
  bool is_refused;
  bool is_written;            /* the last part of the response was passed on */
  bool is_reported;           /* the response says its phase */
};

static ngx_http_output_header_filter_pt next_header_filter;
static ngx_http_output_body_filter_pt next_body_filter;

/* ---- the zone's time */

static uint64_t now_of(const struct node_zone *zone)
{
  return clock_nanos() - zone->start;
}

/* Sets the zone's timer for its next turn. A timer that fires before is left: it is set again then. While requests wait, the timer
   keeps a worker that shuts down. nginx's timers are whole milliseconds, and one that is set is not moved by less than 300 of them, so
   it is deleted before. */
static void set_timer(struct node_zone *zone, uint64_t now)
{
  uint64_t next = zone_next_turn(&zone->zone);
  zone->timer.cancelable = zone->zone.waiting == 0;
  if (zone->timer.timer_set && zone->timer_at <= next)
    return;
  if (zone->timer.timer_set)
    ngx_del_timer(&zone->timer);
  uint64_t millis = next <= now ? 1 : (next - now - 1) / MILLISECOND + 1;
  zone->timer_at = next;
  ngx_add_timer(&zone->timer, (ngx_msec_t)(millis < MOST_MILLIS ? millis : MOST_MILLIS));
}

/* Goes on with requests that are granted or have expired, each by an event of its own, since this may run within another request's
   end. One that is entering goes on by itself. */
static void wake(struct request *woken)
{
  for (; woken; woken = woken->next) {
    struct visit *visit = (struct visit *)woken;
    if (visit->is_suspended) {
      ngx_post_event(&visit->wakes, &ngx_posted_events);
    }
  }
}

static void log_fault(const struct node_zone *zone)
{
  if (zone->zone.fault)
    ngx_log_error(NGX_LOG_ALERT, ngx_cycle->log, 0, "dmclock zone \"%V\": the queue refuses to grant: %s", &zone->name, zone->zone.fault);
}

static void take_turn(ngx_event_t *event)
{
  ngx_connection_t *identity = event->data;
  struct node_zone *zone = identity->data;
  uint64_t now = now_of(zone);
  wake(zone_turn(&zone->zone, now));
  log_fault(zone);
  set_timer(zone, now);
}

/* ---- a visit */

static void end_visit(void *visit);

/* The visit of a request. An internal redirect clears the module's context of it, and the cleanup stays. */
static struct visit *visit_of(ngx_http_request_t *r)
{
  struct visit *visit = ngx_http_get_module_ctx(r, ngx_http_dmclock_module);
  ngx_http_cleanup_t *cleanup = visit || !(r->internal || r->filter_finalize) ? NULL : r->cleanup;
  while (cleanup && cleanup->handler != end_visit)
    cleanup = cleanup->next;
  return cleanup ? cleanup->data : visit;
}

/* The request leaves the zone: it is served, or its client no longer waits. If it was granted, and its response does not say so, that of
   another request of the client has to. */
static void leave(struct visit *visit)
{
  struct node_zone *zone = visit->zone;
  enum request_state state = visit->request.state;
  if (state != REQUEST_WAITS && state != REQUEST_GRANTED)
    return;
  if (state == REQUEST_GRANTED && visit->is_stamped && !visit->is_reported)
    visit->request.client->abandoned[visit->request.phase] += visit->stamp.cost;
  uint64_t now = now_of(zone);
  wake(zone_leave(&zone->zone, &visit->request, now));
  set_timer(zone, now);
}

static void end_visit(void *data)
{
  struct visit *visit = data;
  if (visit->wakes.posted) { /* the macro is several statements */
    ngx_delete_posted_event(&visit->wakes);
  }
  visit->is_suspended = false;
  leave(visit);
}

/* Goes on with a request that waited. */
static void go_on(ngx_event_t *event)
{
  struct visit *visit = event->data;
  ngx_http_request_t *r = visit->r;
  ngx_connection_t *connection = r->connection;
  visit->is_suspended = false;
  ngx_http_set_log_request(connection->log, r);
  r->read_event_handler = ngx_http_block_reading;
  r->write_event_handler = ngx_http_core_run_phases;
  if (ngx_handle_read_event(connection->read, 0) == NGX_OK)
    ngx_http_core_run_phases(r);
  else
    ngx_http_finalize_request(r, NGX_HTTP_INTERNAL_SERVER_ERROR);
  ngx_http_run_posted_requests(connection);
}

static struct visit *new_visit(ngx_http_request_t *r, struct node_zone *zone)
{
  struct visit *visit = ngx_pcalloc(r->pool, sizeof *visit);
  ngx_http_cleanup_t *cleanup = ngx_http_cleanup_add(r, 0);
  if (!visit || !cleanup)
    return NULL;
  visit->r = r;
  visit->zone = zone;
  visit->wakes.handler = go_on;
  visit->wakes.data = visit;
  visit->wakes.log = r->connection->log;
  cleanup->handler = end_visit;
  cleanup->data = visit;
  ngx_http_set_ctx(r, visit, ngx_http_dmclock_module);
  return visit;
}

/* ---- stamps */

/* What the headers of a request have of a stamp. One that comes twice is malformed, since others may read it otherwise. */
struct stamp_headers {
  const ngx_str_t *delta, *rho, *cost, *counting;
  bool is_double;
};

static void take_header(struct stamp_headers *found, const ngx_str_t **value, const ngx_table_elt_t *header)
{
  if (*value)
    found->is_double = true;
  *value = &header->value;
}

static void find_stamp(ngx_list_part_t *part, struct stamp_headers *found)
{
  ngx_table_elt_t *headers = part->elts;
  for (ngx_uint_t i = 0; i < part->nelts; i++) {
    ngx_str_t name = {headers[i].key.len, headers[i].lowcase_key};
    if (!headers[i].hash || !is_stamp_header(&name))
      continue;
    if (is_word(&name, DELTA_HEADER))
      take_header(found, &found->delta, &headers[i]);
    else if (is_word(&name, RHO_HEADER))
      take_header(found, &found->rho, &headers[i]);
    else if (is_word(&name, COST_HEADER))
      take_header(found, &found->cost, &headers[i]);
    else if (is_word(&name, COUNTING_HEADER))
      take_header(found, &found->counting, &headers[i]);
  }
}

static bool read_count(const ngx_str_t *text, uint32_t *count)
{
  return text && stamp_read_count((const char *)text->data, text->len, count);
}

/* A stamp that does not say the cost is of a request that costs 1. */
static bool read_stamp(const struct stamp_headers *found, struct dmc_stamp *stamp)
{
  stamp->cost = 1;
  return !found->is_double && read_count(found->delta, &stamp->delta) && read_count(found->rho, &stamp->rho) &&
         stamp->rho <= stamp->delta && (!found->cost || read_count(found->cost, &stamp->cost)) && stamp->cost > 0 &&
         (!found->counting || is_word(found->counting, COUNTING_ALL));
}

/* In which form a stamp counts. In the form DMC_OTHERS it counts its own cost, and so is not below that. */
static enum dmc_counting counting_of(const struct stamp_headers *found, const struct dmc_stamp *stamp)
{
  return found->counting || stamp->rho < stamp->cost ? DMC_ALL : DMC_OTHERS;
}

/* Takes the request's stamp, if it counts. */
static void take_stamp(struct visit *visit, ngx_array_t *trust)
{
  ngx_http_request_t *r = visit->r;
  struct stamp_headers found = {NULL, NULL, NULL, NULL, false};
  for (ngx_list_part_t *part = &r->headers_in.headers.part; part; part = part->next)
    find_stamp(part, &found);
  if (!found.delta && !found.rho)
    return;
  bool is_trusted = trust && ngx_cidr_match(r->connection->sockaddr, trust) == NGX_OK;
  struct dmc_stamp stamp = {0, 0, 0};
  visit->is_stamped = is_trusted && read_stamp(&found, &stamp);
  if (visit->is_stamped) {
    visit->stamp = stamp;
    visit->request.counting = counting_of(&found, &stamp);
  } else
    ngx_log_error(NGX_LOG_INFO, r->connection->log, 0, "dmclock: the request's stamp is %s, and does not count",
                  is_trusted ? "malformed" : "of an address that dmclock_trust does not have");
  struct zone *zone = &visit->zone->zone;
  *(!is_trusted ? &zone->untrusted : visit->is_stamped ? &zone->stamped : &zone->malformed) += 1;
}

/* The stamp of a request without one that counts: its own cost, as at a server that is its clients' only one. If the body was read before,
   its length is known. */
static void make_stamp(struct visit *visit)
{
  uint32_t cost = request_cost(visit->r);
  visit->stamp = (struct dmc_stamp){cost, cost, cost};
  visit->request.counting = DMC_OTHERS;
}

/* ---- clients */

/* A client that was just made, with as many of its requests that wait as the settings say, if they do. */
static struct client *with_queue(struct client *client, uint32_t queue)
{
  if (client && queue)
    client->most_waiting = queue;
  return client;
}

/* The client of a name: one of the settings, or one of the other names. NULL if there is none, or if there are too many. */
static struct client *client_of(struct node_zone *zone, const char *name, uint64_t now)
{
  struct client *client = zone_find(&zone->zone, name);
  if (client || !zone->has_others)
    return client;
  return zone->is_shared ? zone->shared : with_queue(zone_client(&zone->zone, name, &zone->others, false, now), zone->others_queue);
}

/* ---- entering */

static ngx_int_t refuse(struct visit *visit, const char *reason, ngx_int_t status)
{
  visit->is_refused = true;
  ngx_log_error(NGX_LOG_INFO, visit->r->connection->log, 0, "dmclock zone \"%V\": a request is refused: %s", &visit->zone->name, reason);
  return status;
}

/* The status of requests that the zone refuses. After how many nanoseconds to come again is said, if it is not 0. */
static ngx_int_t reject(struct visit *visit, const char *reason, uint64_t nanos)
{
  struct node_location *location = ngx_http_get_module_loc_conf(visit->r, ngx_http_dmclock_module);
  visit->retry_after = nanos ? (nanos - 1) / SECOND + 1 : 0;
  return refuse(visit, reason, (ngx_int_t)location->reject);
}

/* Until the request is granted, nginx looks only for its client's going away. */
static ngx_int_t suspend(struct visit *visit)
{
  ngx_http_request_t *r = visit->r;
  ngx_event_t *read = r->connection->read;
  r->read_event_handler = ngx_http_test_reading;
  r->write_event_handler = ngx_http_request_empty_handler;
  if (read->ready) {
    ngx_post_event(read, &ngx_posted_events);
  } else if (ngx_handle_read_event(read, 0) != NGX_OK) {
    return NGX_HTTP_INTERNAL_SERVER_ERROR;
  }
  visit->is_suspended = true;
  return NGX_AGAIN;
}

/* The client of a request; NULL after a refusal, and its status. */
static struct client *find_client(struct visit *visit, uint64_t now, ngx_int_t *status)
{
  struct node_zone *zone = visit->zone;
  ngx_str_t key;
  char name[NAME_SIZE], printable[PRINTABLE_SIZE];
  if (!request_text_of(visit->r, &zone->key, &key)) {
    *status = NGX_HTTP_INTERNAL_SERVER_ERROR;
    return NULL;
  }
  bool is_name = name_copy(&key, name);
  struct client *client = is_name ? client_of(zone, name, now) : NULL;
  if (client)
    return client;
  zone->zone.unknown++;
  if (is_name && zone->has_others) {
    *status = reject(visit, "there are too many other names", 0);
    return NULL;
  }
  ngx_log_error(NGX_LOG_INFO, visit->r->connection->log, 0, "dmclock zone \"%V\" has no client \"%s\"", &zone->name,
                is_name ? text_printable(name, printable) : "(a name that is too long, or has a byte 0)");
  *status = refuse(visit, "its name is no client", NGX_HTTP_FORBIDDEN);
  return NULL;
}

/* After how long a request that is refused may come again; 0 if that is not known. */
static uint64_t retry_after(const struct visit *visit, enum refusal refusal, const struct client *client, uint64_t now)
{
  const struct zone *zone = &visit->zone->zone;
  switch (refusal) {
    case REFUSED_LIMIT: return zone_limit_after(zone, client, visit->stamp, now);
    case REFUSED_FULL:
    case REFUSED_CLIENT_FULL: return zone_retry_after(zone, now);
    default: return 0;
  }
}

static ngx_int_t enter(struct visit *visit)
{
  struct node_zone *zone = visit->zone;
  uint64_t now = now_of(zone);
  ngx_int_t status;
  struct client *client = find_client(visit, now, &status);
  if (!client)
    return status;
  if (!visit->is_stamped)
    make_stamp(visit);
  struct request *woken;
  enum refusal refusal = zone_enter(&zone->zone, &visit->request, client, visit->stamp, now, &woken);
  if (refusal)
    return reject(visit, refusal_text(refusal), retry_after(visit, refusal, client, now));
  wake(woken);
  set_timer(zone, now);
  return visit->request.state == REQUEST_GRANTED ? NGX_DECLINED : suspend(visit);
}

/* ---- the phase */

/* The body is there: the phases go on with the request. */
static void body_is_read(ngx_http_request_t *r)
{
  r->write_event_handler = ngx_http_core_run_phases;
  ngx_http_core_run_phases(r);
}

/* Reads the body before the request is queued, so that it does not hold a place at the device while it comes. */
static ngx_int_t read_body(struct visit *visit)
{
  ngx_int_t status;
  if (!find_client(visit, now_of(visit->zone), &status))
    return status;
  status = ngx_http_read_client_request_body(visit->r, body_is_read);
  if (status >= NGX_HTTP_SPECIAL_RESPONSE)
    return status;
  ngx_http_finalize_request(visit->r, NGX_DONE);
  return NGX_DONE;
}

static ngx_int_t begin(ngx_http_request_t *r, struct node_location *location)
{
  struct visit *visit = new_visit(r, location->zone);
  if (!visit)
    return NGX_HTTP_INTERNAL_SERVER_ERROR;
  take_stamp(visit, location->trust);
  return location->read_body ? read_body(visit) : enter(visit);
}

/* The handler of the phase. It is called again when the body was read, when a request goes on, and after an internal redirect: a
   request is in one queue, once. Subrequests go in the place of their request, else a device of depth 1 would wait for itself. The
   page of the status is for those who look why others wait. */
static ngx_int_t handle(ngx_http_request_t *r)
{
  struct node_location *location = ngx_http_get_module_loc_conf(r, ngx_http_dmclock_module);
  if (!location->zone || location->status != STATUS_NONE || r != r->main)
    return NGX_DECLINED;
  struct visit *visit = visit_of(r);
  if (!visit)
    return begin(r, location);
  if (visit->is_refused)
    return NGX_DECLINED;
  switch (visit->request.state) {
    case REQUEST_NEW: return enter(visit);
    case REQUEST_WAITS: return NGX_AGAIN;
    case REQUEST_EXPIRED: return reject(visit, "it waited for too long", zone_retry_after(&visit->zone->zone, now_of(visit->zone)));
    default: return NGX_DECLINED;
  }
}

/* ---- the response */

static ngx_int_t put_header(ngx_http_request_t *r, const char *name, const char *value)
{
  ngx_table_elt_t *header = ngx_list_push(&r->headers_out.headers);
  if (!header)
    return NGX_ERROR;
  memset(header, 0, sizeof *header);
  header->hash = 1;
  header->key = (ngx_str_t){strlen(name), (u_char *)name};
  header->value = (ngx_str_t){strlen(value), (u_char *)value};
  return NGX_OK;
}

/* What the response says of a request's stamp. */
static enum outcome outcome_of_visit(const struct visit *visit)
{
  switch (visit->request.state) {
    case REQUEST_NEW: return OUTCOME_RETURNED;
    case REQUEST_WAITS:
    case REQUEST_EXPIRED: return OUTCOME_EXPIRED;
    default: return visit->request.phase == DMC_RESERVATION ? OUTCOME_RESERVATION : OUTCOME_PRIORITY;
  }
}

static ngx_int_t put_retry_after(ngx_http_request_t *r, uint64_t seconds)
{
  char *value = ngx_pnalloc(r->pool, NGX_INT64_LEN + 1);
  if (!value)
    return NGX_ERROR;
  snprintf(value, NGX_INT64_LEN + 1, "%llu", (unsigned long long)seconds);
  return put_header(r, "Retry-After", value);
}

/* Takes as much as a header says from what a client's abandoned requests cost. */
static uint32_t take_abandoned(uint64_t *cost)
{
  uint32_t taken = *cost < UINT32_MAX ? (uint32_t)*cost : UINT32_MAX;
  *cost -= taken;
  return taken;
}

static ngx_int_t put_abandoned(ngx_http_request_t *r, struct client *client)
{
  uint32_t costs[2] = {take_abandoned(&client->abandoned[0]), take_abandoned(&client->abandoned[1])};
  char *value = costs[0] || costs[1] ? ngx_pnalloc(r->pool, ABANDONED_SIZE) : NULL;
  if (!value)
    return costs[0] || costs[1] ? NGX_ERROR : NGX_OK;
  stamp_write_abandoned(value, costs);
  return put_header(r, ABANDONED_HEADER, value);
}

/* Says what became of the request's stamp, if it has one that counts, and of the stamps of abandoned requests. */
static ngx_int_t put_report(ngx_http_request_t *r, struct visit *visit)
{
  if (!visit->is_stamped)
    return NGX_OK;
  if (put_header(r, PHASE_HEADER, outcome_word(outcome_of_visit(visit))) != NGX_OK)
    return NGX_ERROR;
  visit->is_reported = true;
  return visit->request.state == REQUEST_GRANTED ? put_abandoned(r, visit->request.client) : NGX_OK;
}

/* The phase is the queue's, whatever the content says: with the word "none" of a tenant's own its requests would not count. A response
   without a body has its request leave here. */
static ngx_int_t filter_header(ngx_http_request_t *r)
{
  struct visit *visit = r == r->main ? visit_of(r) : NULL;
  if (!visit)
    return next_header_filter(r);
  drop_reports(r);
  if (put_report(r, visit) != NGX_OK)
    return NGX_ERROR;
  if (visit->retry_after && put_retry_after(r, visit->retry_after) != NGX_OK)
    return NGX_ERROR;
  ngx_int_t result = next_header_filter(r);
  if (result == NGX_OK && r->header_only)
    leave(visit);
  return result;
}

static bool has_end(const ngx_chain_t *part)
{
  while (part && !part->buf->last_buf)
    part = part->next;
  return part != NULL;
}

/* A request leaves when its response is sent, and not only at its end: that may be half a minute later, if the rest of a body that
   nobody reads has to come first. */
static ngx_int_t filter_body(ngx_http_request_t *r, ngx_chain_t *part)
{
  struct visit *visit = r == r->main ? visit_of(r) : NULL;
  if (!visit || visit->request.state != REQUEST_GRANTED)
    return next_body_filter(r, part);
  visit->is_written = visit->is_written || has_end(part);
  ngx_int_t result = next_body_filter(r, part);
  if (result == NGX_OK && visit->is_written && !r->buffered && !r->postponed)
    leave(visit);
  return result;
}

/* ---- the worker */

/* The clients of the settings, and the one that all other names share. */
static bool add_clients(struct node_zone *zone)
{
  struct client_setting **clients = zone->clients.elts;
  if (zone->is_shared)
    zone->shared = with_queue(zone_client(&zone->zone, "dmclock-default", &zone->others, true, 0), zone->others_queue);
  bool is_added = !zone->is_shared || zone->shared;
  for (ngx_uint_t i = 0; i < zone->clients.nelts && is_added; i++)
    is_added = with_queue(zone_client(&zone->zone, clients[i]->name, &clients[i]->rates, true, 0), clients[i]->queue) != NULL;
  return is_added;
}

static ngx_int_t open_zone(struct node_zone *zone, ngx_log_t *log)
{
  if (!zone_open(&zone->zone, &zone->config) || !add_clients(zone)) {
    ngx_log_error(NGX_LOG_EMERG, log, 0, "dmclock zone \"%V\": memory is short", &zone->name);
    return NGX_ERROR;
  }
  zone->start = clock_nanos();
  zone->identity.fd = (ngx_socket_t)-1;
  zone->identity.data = zone;
  zone->timer.handler = take_turn;
  zone->timer.data = &zone->identity;
  zone->timer.log = log;
  set_timer(zone, 0);
  return NGX_OK;
}

/* Queues are of workers: the processes that keep a cache call this too. */
static ngx_int_t open_zones(ngx_cycle_t *cycle)
{
  struct node_main *node = ngx_http_cycle_get_module_main_conf(cycle, ngx_http_dmclock_module);
  bool is_worker = ngx_process == NGX_PROCESS_WORKER || ngx_process == NGX_PROCESS_SINGLE;
  struct node_zone **zones = node ? node->zones.elts : NULL;
  ngx_int_t result = NGX_OK;
  for (ngx_uint_t i = 0; node && is_worker && i < node->zones.nelts && result == NGX_OK; i++)
    result = open_zone(zones[i], cycle->log);
  return result;
}

static void close_zones(ngx_cycle_t *cycle)
{
  struct node_main *node = ngx_http_cycle_get_module_main_conf(cycle, ngx_http_dmclock_module);
  struct node_zone **zones = node ? node->zones.elts : NULL;
  for (ngx_uint_t i = 0; node && i < node->zones.nelts; i++)
    zone_close(&zones[i]->zone);
}

/* At a reload the workers of before serve what they have queued, while the new ones begin with queues of their own. */
static ngx_int_t say_reload(ngx_cycle_t *cycle)
{
  struct node_main *node = ngx_http_cycle_get_module_main_conf(cycle, ngx_http_dmclock_module);
  bool is_reload = !ngx_test_config && cycle->old_cycle && !ngx_is_init_cycle(cycle->old_cycle);
  struct node_zone **zones = node ? node->zones.elts : NULL;
  for (ngx_uint_t i = 0; node && is_reload && i < node->zones.nelts; i++)
    ngx_log_error(NGX_LOG_NOTICE, cycle->log, 0,
                  "dmclock zone \"%V\": until the workers of before have served what they have queued, they grant it besides the new "
                  "ones: up to twice the depth and the limits", &zones[i]->name);
  return NGX_OK;
}

/* ---- the module */

static void *create_main(ngx_conf_t *cf)
{
  struct node_main *node = ngx_pcalloc(cf->pool, sizeof *node);
  bool is_made = node && ngx_array_init(&node->zones, cf->pool, 2, sizeof(struct node_zone *)) == NGX_OK;
  return is_made ? node : NULL;
}

static void *create_location(ngx_conf_t *cf)
{
  struct node_location *location = ngx_pcalloc(cf->pool, sizeof *location);
  if (!location)
    return NULL;
  location->zone = NGX_CONF_UNSET_PTR;
  location->read_body = NGX_CONF_UNSET;
  location->reject = NGX_CONF_UNSET_UINT;
  location->trust = NGX_CONF_UNSET_PTR;
  location->cost = NGX_CONF_UNSET_PTR;
  return location;
}

static char *merge_location(ngx_conf_t *cf, void *parent, void *child)
{
  struct node_location *before = parent, *location = child;
  ngx_conf_merge_ptr_value(location->zone, before->zone, NULL);
  ngx_conf_merge_value(location->read_body, before->read_body, 0);
  ngx_conf_merge_uint_value(location->reject, before->reject, NGX_HTTP_SERVICE_UNAVAILABLE);
  ngx_conf_merge_ptr_value(location->trust, before->trust, NULL);
  ngx_conf_merge_ptr_value(location->cost, before->cost, NULL);
  return NGX_CONF_OK;
}

static ngx_int_t finish(ngx_conf_t *cf)
{
  ngx_http_core_main_conf_t *core = ngx_http_conf_get_module_main_conf(cf, ngx_http_core_module);
  ngx_http_handler_pt *handler = ngx_array_push(&core->phases[NGX_HTTP_PRECONTENT_PHASE].handlers);
  if (!handler || !zones_agree(cf, ngx_http_conf_get_module_main_conf(cf, ngx_http_dmclock_module)))
    return NGX_ERROR;
  *handler = handle;
  next_header_filter = ngx_http_top_header_filter;
  ngx_http_top_header_filter = filter_header;
  next_body_filter = ngx_http_top_body_filter;
  ngx_http_top_body_filter = filter_body;
  return NGX_OK;
}

#define EVERYWHERE (NGX_HTTP_MAIN_CONF | NGX_HTTP_SRV_CONF | NGX_HTTP_LOC_CONF)

static ngx_command_t commands[] = {
  {ngx_string("dmclock_zone"), NGX_HTTP_MAIN_CONF | NGX_CONF_2MORE, zone_directive, NGX_HTTP_MAIN_CONF_OFFSET, 0, NULL},
  {ngx_string("dmclock_client"), NGX_HTTP_MAIN_CONF | NGX_CONF_2MORE, client_directive, NGX_HTTP_MAIN_CONF_OFFSET, 0, NULL},
  {ngx_string("dmclock_clients"), NGX_HTTP_MAIN_CONF | NGX_CONF_TAKE2, clients_directive, NGX_HTTP_MAIN_CONF_OFFSET, 0, NULL},
  {ngx_string("dmclock_default"), NGX_HTTP_MAIN_CONF | NGX_CONF_1MORE, default_directive, NGX_HTTP_MAIN_CONF_OFFSET, 0, NULL},
  {ngx_string("dmclock"), EVERYWHERE | NGX_CONF_TAKE1, use_directive, NGX_HTTP_LOC_CONF_OFFSET, 0, NULL},
  {ngx_string("dmclock_read_body"), EVERYWHERE | NGX_CONF_FLAG, ngx_conf_set_flag_slot, NGX_HTTP_LOC_CONF_OFFSET,
   offsetof(struct node_location, read_body), NULL},
  {ngx_string("dmclock_reject"), EVERYWHERE | NGX_CONF_TAKE1, reject_directive, NGX_HTTP_LOC_CONF_OFFSET, 0, NULL},
  {ngx_string("dmclock_trust"), EVERYWHERE | NGX_CONF_1MORE, trust_directive, NGX_HTTP_LOC_CONF_OFFSET, 0, NULL},
  {ngx_string("dmclock_cost"), EVERYWHERE | NGX_CONF_1MORE, cost_directive, NGX_HTTP_LOC_CONF_OFFSET, 0, NULL},
  {ngx_string("dmclock_status"), NGX_HTTP_LOC_CONF | NGX_CONF_NOARGS | NGX_CONF_TAKE1, status_directive, NGX_HTTP_LOC_CONF_OFFSET, 0, NULL},
  ngx_null_command
};

static ngx_http_module_t context = {NULL, finish, create_main, NULL, NULL, NULL, create_location, merge_location};

ngx_module_t ngx_http_dmclock_module = {
  NGX_MODULE_V1, &context, commands, NGX_HTTP_MODULE, NULL, say_reload, open_zones, NULL, NULL, close_zones, NULL, NGX_MODULE_V1_PADDING
};
