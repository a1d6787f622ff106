/* A front: requests to the servers of an upstream carry a stamp of their tenant, and the responses are counted. nginx makes a request
   before it selects the server, and the stamp is for that server. So the request's head gets room for the stamp when the selection
   begins, and the counts are written when a server is selected, again for each further one that is tried. */
#include "module.h"

#include "stamp.h"

/* The lines of a stamp. A count takes ten columns, filled up by blanks before it, as HTTP allows. */
#define COUNT "         0"
#define COUNT_COLUMNS (sizeof COUNT - 1)
#define COUNT_LINES DELTA_HEADER ": " COUNT "\r\n" RHO_HEADER ": " COUNT "\r\n" COST_HEADER ": " COUNT "\r\n"
#define COUNTING_LINE COUNTING_HEADER ": " COUNTING_ALL "\r\n"
#define ROOM (sizeof COUNT_LINES COUNTING_LINE - 1)

/* Where the counts are in these lines. */
#define DELTA_AT (sizeof DELTA_HEADER ": " - 1)
#define RHO_AT (DELTA_AT + sizeof COUNT "\r\n" RHO_HEADER ": " - 1)
#define COST_AT (RHO_AT + sizeof COUNT "\r\n" COST_HEADER ": " - 1)

struct front_upstream {
  struct front_tracker *tracker;
  ngx_http_upstream_init_pt init_upstream;
  ngx_http_upstream_init_peer_pt init_peer;
};

/* A request to an upstream. */
struct passage {
  struct front_tracker *tracker;
  ngx_http_upstream_t *upstream;
  const char *name;               /* of the tenant */
  uint32_t cost;
  u_char *delta, *rho;            /* where the counts are written; NULL if there is no room for them */
  struct try try;
  bool is_under_way;              /* whether the try has no outcome yet */
  void *data;                     /* what the selection of the upstream has, and calls */
  ngx_event_get_peer_pt get;
  ngx_event_free_peer_pt free;
#if (NGX_HTTP_SSL)
  ngx_event_set_peer_session_pt set_session;
  ngx_event_save_peer_session_pt save_session;
#endif
};

static ngx_http_output_header_filter_pt next_header_filter;

/* ---- the head of the request to the server */

/* The end of a line, past its line feed. */
static u_char *line_end(u_char *at, u_char *last)
{
  u_char *feed = memchr(at, '\n', (size_t)(last - at));
  return feed ? feed + 1 : last;
}

static bool is_stamp_line(const u_char *at, const u_char *end)
{
  size_t length = sizeof STAMP_HEADERS - 1;
  return (*at | 0x20) == STAMP_HEADERS[0] && (size_t)(end - at) >= length &&
         ngx_strncasecmp((u_char *)at, (u_char *)STAMP_HEADERS, length) == 0;
}

/* Copies the head without the stamps that came from outside, up to the empty line, and what is after it: a body may be there. */
static u_char *copy_without_stamps(u_char *to, u_char *at, u_char *last)
{
  u_char *end = line_end(at, last);
  for (; at < last && *at != '\r' && *at != '\n'; at = end, end = line_end(at, last))
    if (!is_stamp_line(at, end))
      to = ngx_cpymem(to, at, end - at);
  return ngx_cpymem(to, at, last - at);
}

/* Writes a count into its columns, with at least one digit. */
static void write_count(u_char *at, uint32_t count)
{
  memset(at, ' ', COUNT_COLUMNS);
  u_char *digit = at + COUNT_COLUMNS;
  do
    *--digit = (u_char)('0' + count % 10);
  while (count /= 10);
}

/* Puts the lines of a stamp, whose counts are written later. */
static u_char *put_stamp(u_char *to, struct passage *passage)
{
  bool is_all = passage->tracker->tenants.counting == DMC_ALL;
  passage->delta = to + DELTA_AT;
  passage->rho = to + RHO_AT;
  u_char *end = ngx_cpymem(to, COUNT_LINES COUNTING_LINE, is_all ? ROOM : sizeof COUNT_LINES - 1);
  write_count(to + COST_AT, passage->cost);
  return end;
}

/* Makes the head anew, with room for a stamp after its first line. It stays in the first buffer, where nginx expects it, and a
   further try sends that buffer again from its start. */
static bool make_head(ngx_http_request_t *r, struct passage *passage)
{
  ngx_buf_t *head = r->upstream->request_bufs->buf;
  u_char *line = line_end(head->start, head->last);
  u_char *start = ngx_pnalloc(r->pool, (size_t)(head->last - head->start) + ROOM);
  if (!start)
    return false;
  u_char *to = ngx_cpymem(start, head->start, line - head->start);
  if (passage->tracker)
    to = put_stamp(to, passage);
  to = copy_without_stamps(to, line, head->last);
  head->start = head->pos = start;
  head->last = head->end = to;
  return true;
}

/* ---- stamps */

/* The number of a server; the number of all if it is none of them. */
static uint32_t server_of(const struct front_tracker *tracker, struct sockaddr *address, socklen_t length)
{
  ngx_addr_t *servers = tracker->servers.elts;
  uint32_t server = 0;
  while (server < tracker->servers.nelts &&
         ngx_cmp_sockaddr(servers[server].sockaddr, servers[server].socklen, address, length, 1) != NGX_OK)
    server++;
  return server;
}

/* Stamps the request for the server that is selected. Without a stamp it counts its own cost there. */
static void stamp(struct passage *passage, ngx_peer_connection_t *peer)
{
  struct front_tracker *tracker = passage->tracker;
  uint32_t server = server_of(tracker, peer->sockaddr, peer->socklen);
  struct dmc_stamp written = {passage->cost, passage->cost, passage->cost};
  passage->is_under_way = server < tracker->servers.nelts && tenants_begin(&tracker->tenants, passage->name, server, passage->cost, &passage->try);
  if (passage->is_under_way)
    written = passage->try.stamp;
  else {
    tracker->tenants.unstamped++;
    ngx_log_error(NGX_LOG_WARN, peer->log, 0, "dmclock tracker \"%V\": no stamp for the server \"%V\": %s", &tracker->name, peer->name,
                  server < tracker->servers.nelts ? "every tenant has a request under way, or memory is short"
                                                  : "it is none of the tracker's");
  }
  write_count(passage->delta, written.delta);
  write_count(passage->rho, written.rho);
}

/* What a response says of stamps; NULL if it does not say it. */
struct report {
  const ngx_str_t *phase, *abandoned;
};

static void find_report(const ngx_list_part_t *part, struct report *report)
{
  const ngx_table_elt_t *headers = part->elts;
  for (ngx_uint_t i = 0; i < part->nelts; i++) {
    ngx_str_t name = {headers[i].key.len, headers[i].lowcase_key};
    if (!headers[i].hash || !is_stamp_header(&name))
      continue;
    if (!report->phase && is_word(&name, PHASE_HEADER))
      report->phase = &headers[i].value;
    else if (!report->abandoned && is_word(&name, ABANDONED_HEADER))
      report->abandoned = &headers[i].value;
  }
}

static struct report report_of(const ngx_http_upstream_t *upstream)
{
  struct report report = {NULL, NULL};
  for (const ngx_list_part_t *part = &upstream->headers_in.headers.part; part; part = part->next)
    find_report(part, &report);
  return report;
}

/* Whether a try has a response. Without a connection, what nginx knows is of an earlier one. */
static bool has_response(const ngx_http_upstream_t *upstream, const ngx_peer_connection_t *peer)
{
  return peer->connection && upstream->request_sent && upstream->headers_in.status_n;
}

/* What became of a try that has no response. A request that was sent only in part is not in the queue yet, if the server reads bodies
   before; a connection that was kept and ends without a response, in time, was closed before the request came. Any other request has
   reached the queue, which cancels it; if it was granted before, a later response says so. */
static enum outcome outcome_without_response(const struct passage *passage, const ngx_peer_connection_t *peer, ngx_uint_t state)
{
  const ngx_http_upstream_t *upstream = passage->upstream;
  if (!peer->connection || !upstream->request_sent || !upstream->request_body_sent)
    return OUTCOME_RETURNED;
  bool is_closed_before = peer->cached && (state & NGX_PEER_FAILED) && !peer->connection->read->timedout;
  return is_closed_before ? OUTCOME_RETURNED : OUTCOME_EXPIRED;
}

/* What became of a try. What the server says of abandoned requests of the tenant is counted before. */
static enum outcome take_response(struct passage *passage)
{
  uint32_t costs[2];
  struct report report = report_of(passage->upstream);
  if (report.abandoned && stamp_read_abandoned((const char *)report.abandoned->data, report.abandoned->len, costs))
    tenants_add(&passage->tracker->tenants, &passage->try, costs);
  return report.phase ? outcome_of((const char *)report.phase->data, report.phase->len) : outcome_of(NULL, 0);
}

/* ---- what nginx calls in place of the upstream's selection */

/* NGX_OK is a server that is to be connected, and NGX_DONE a connection that was kept. */
static ngx_int_t get_peer(ngx_peer_connection_t *peer, void *data)
{
  struct passage *passage = data;
  ngx_int_t result = passage->get(peer, passage->data);
  if (result == NGX_OK || result == NGX_DONE)
    stamp(passage, peer);
  return result;
}

static void free_peer(ngx_peer_connection_t *peer, void *data, ngx_uint_t state)
{
  struct passage *passage = data;
  if (passage->is_under_way) {
    bool has_one = has_response(passage->upstream, peer);
    enum outcome outcome = has_one ? take_response(passage) : outcome_without_response(passage, peer, state);
    tenants_end(&passage->tracker->tenants, &passage->try, outcome);
  }
  passage->is_under_way = false;
  passage->free(peer, passage->data, state);
}

#if (NGX_HTTP_SSL)
static ngx_int_t set_session(ngx_peer_connection_t *peer, void *data)
{
  struct passage *passage = data;
  return passage->set_session(peer, passage->data);
}

static void save_session(ngx_peer_connection_t *peer, void *data)
{
  struct passage *passage = data;
  passage->save_session(peer, passage->data);
}
#endif

static void wrap_peer(ngx_peer_connection_t *peer, struct passage *passage)
{
  passage->data = peer->data;
  passage->get = peer->get;
  passage->free = peer->free;
  peer->data = passage;
  peer->get = get_peer;
  peer->free = free_peer;
#if (NGX_HTTP_SSL)
  passage->set_session = peer->set_session;
  passage->save_session = peer->save_session;
  peer->set_session = set_session;
  peer->save_session = save_session;
#endif
}

/* The tenant of a request. False if its name is too long. */
static bool find_name(ngx_http_request_t *r, struct passage *passage)
{
  ngx_str_t name;
  if (!request_text_of(r, &passage->tracker->key, &name) || name.len >= NAME_SIZE)
    return false;
  char *text = ngx_pnalloc(r->pool, name.len + 1);
  passage->name = text;
  return text && name_copy(&name, text);
}

/* Only HTTP/1 has a head that is known here; gRPC, FastCGI and others go without a stamp. */
static bool is_http(const ngx_http_upstream_t *upstream)
{
  static const char version[] = " HTTP/1.";
  if (upstream->schema.len < 4 || memcmp(upstream->schema.data, "http", 4) != 0 || !upstream->request_bufs)
    return false;
  const ngx_buf_t *head = upstream->request_bufs->buf;
  const u_char *end = line_end(head->start, head->last);
  size_t length = sizeof version - 1 + sizeof "1\r\n" - 1;
  return (size_t)(end - head->start) > length && memcmp(end - length, version, sizeof version - 1) == 0;
}

static ngx_int_t init_peer(ngx_http_request_t *r, ngx_http_upstream_srv_conf_t *server)
{
  struct front_upstream *front = ngx_http_conf_upstream_srv_conf(server, ngx_http_dmclock_track_module);
  if (front->init_peer(r, server) != NGX_OK)
    return NGX_ERROR;
  struct passage *passage = ngx_pcalloc(r->pool, sizeof *passage);
  if (!passage)
    return NGX_ERROR;
  passage->tracker = front->tracker;
  passage->upstream = r->upstream;
  passage->cost = request_cost(r);
  ngx_http_set_ctx(r, passage, ngx_http_dmclock_track_module);
  bool is_known = is_http(r->upstream);
  if (!is_known || !find_name(r, passage)) {
    front->tracker->tenants.unstamped++;
    passage->tracker = NULL;
    ngx_log_error(NGX_LOG_WARN, r->connection->log, 0, "dmclock tracker \"%V\": no stamp: %s", &front->tracker->name,
                  is_known ? "the tenant's name is too long" : "the request is not of HTTP/1");
  }
  if (is_known && !make_head(r, passage))
    return NGX_ERROR;
  if (passage->tracker)
    wrap_peer(&r->upstream->peer, passage);
  return NGX_OK;
}

static void drop_of_part(const ngx_list_part_t *part)
{
  ngx_table_elt_t *headers = part->elts;
  for (ngx_uint_t i = 0; i < part->nelts; i++)
    if (headers[i].key.len >= sizeof STAMP_HEADERS - 1 &&
        ngx_strncasecmp(headers[i].key.data, (u_char *)STAMP_HEADERS, sizeof STAMP_HEADERS - 1) == 0)
      headers[i].hash = 0;
}

void drop_reports(ngx_http_request_t *r)
{
  for (const ngx_list_part_t *part = &r->headers_out.headers.part; part; part = part->next)
    drop_of_part(part);
}

/* What a server said of a stamp is for this front alone. */
static ngx_int_t filter_header(ngx_http_request_t *r)
{
  if (ngx_http_get_module_ctx(r, ngx_http_dmclock_track_module))
    drop_reports(r);
  return next_header_filter(r);
}

/* ---- the directives */

static struct front_tracker *find_tracker(const struct front_main *front, const ngx_str_t *name)
{
  struct front_tracker **trackers = front->trackers.elts;
  for (ngx_uint_t i = 0; i < front->trackers.nelts; i++)
    if (trackers[i]->name.len == name->len && memcmp(trackers[i]->name.data, name->data, name->len) == 0)
      return trackers[i];
  return NULL;
}

static char *set_all(ngx_conf_t *cf, void *tracker, const ngx_str_t *word, const ngx_str_t *value)
{
  ((struct front_tracker *)tracker)->tenants.counting = DMC_ALL;
  return NGX_CONF_OK;
}

/* Which is so if nothing is said. */
static char *set_others(ngx_conf_t *cf, void *tracker, const ngx_str_t *word, const ngx_str_t *value)
{
  if (((struct front_tracker *)tracker)->tenants.counting == DMC_ALL)
    return params_bad(cf, word, "one of all and others");
  return NGX_CONF_OK;
}

static char *set_tenants(ngx_conf_t *cf, void *tracker, const ngx_str_t *word, const ngx_str_t *value)
{
  return params_number(cf, word, value, MOST_CLIENTS, &((struct front_tracker *)tracker)->tenants.most);
}

static const struct param tracker_params[] = {{"all", set_all}, {"others", set_others}, {"tenants=", set_tenants}, {NULL, NULL}};

/* dmclock_tracker NAME KEY [all | others] [tenants=N] */
static char *tracker_directive(ngx_conf_t *cf, ngx_command_t *command, void *main)
{
  struct front_main *front = main;
  ngx_str_t *words = cf->args->elts;
  if (words[1].len == 0 || find_tracker(front, &words[1]))
    return params_bad(cf, &words[1], "a name that no other tracker has");
  struct front_tracker *tracker = ngx_pcalloc(cf->pool, sizeof *tracker), **kept = ngx_array_push(&front->trackers);
  if (!tracker || !kept || ngx_array_init(&tracker->servers, cf->pool, 4, sizeof(ngx_addr_t)) != NGX_OK)
    return NGX_CONF_ERROR;
  *kept = tracker;
  tracker->name = words[1];
  tracker->tenants.name = text_of(cf, &words[1]);
  tracker->tenants.counting = DMC_OTHERS;
  tracker->tenants.most = 1024;
  if (!tracker->tenants.name || request_text_read(cf, &words[2], &tracker->key) != NGX_CONF_OK)
    return NGX_CONF_ERROR;
  return params_read(cf, 3, tracker_params, tracker);
}

static ngx_int_t add_server(ngx_conf_t *cf, struct front_tracker *tracker, const ngx_addr_t *address)
{
  uint32_t place = server_of(tracker, address->sockaddr, address->socklen);
  if (place < tracker->servers.nelts)
    return NGX_OK;
  if (place == MOST_SERVERS) {
    ngx_log_error(NGX_LOG_EMERG, cf->log, 0, "dmclock_tracker \"%V\" has more than %d servers", &tracker->name, MOST_SERVERS);
    return NGX_ERROR;
  }
  ngx_addr_t *server = ngx_array_push(&tracker->servers);
  if (!server)
    return NGX_ERROR;
  *server = *address;
  tracker->tenants.servers = place + 1;
  tracker->tenants.server_names[place] = text_of(cf, &address->name);
  return tracker->tenants.server_names[place] ? NGX_OK : NGX_ERROR;
}

static ngx_int_t add_servers(ngx_conf_t *cf, struct front_tracker *tracker, const ngx_http_upstream_server_t *server)
{
  ngx_int_t result = NGX_OK;
  for (ngx_uint_t i = 0; i < server->naddrs && result == NGX_OK; i++)
    result = add_server(cf, tracker, &server->addrs[i]);
  return result;
}

static ngx_int_t init_upstream(ngx_conf_t *cf, ngx_http_upstream_srv_conf_t *upstream)
{
  struct front_upstream *front = ngx_http_conf_upstream_srv_conf(upstream, ngx_http_dmclock_track_module);
  ngx_http_upstream_server_t *servers = upstream->servers->elts;
  ngx_int_t result = front->init_upstream(cf, upstream);
  front->init_peer = upstream->peer.init;
  upstream->peer.init = init_peer;
  for (ngx_uint_t i = 0; i < upstream->servers->nelts && result == NGX_OK; i++)
    result = add_servers(cf, front->tracker, &servers[i]);
  return result;
}

/* dmclock_track NAME */
static char *track_directive(ngx_conf_t *cf, ngx_command_t *command, void *where)
{
  struct front_upstream *front = where;
  struct front_main *main = ngx_http_conf_get_module_main_conf(cf, ngx_http_dmclock_track_module);
  ngx_http_upstream_srv_conf_t *upstream = ngx_http_conf_get_module_srv_conf(cf, ngx_http_upstream_module);
  ngx_str_t *words = cf->args->elts;
  if (front->tracker)
    return "is duplicate";
  front->tracker = find_tracker(main, &words[1]);
  if (!front->tracker)
    return params_bad(cf, &words[1], "the name of a dmclock_tracker that is declared before");
  ngx_http_upstream_srv_conf_t **kept = ngx_array_push(&main->upstreams);
  if (!kept)
    return NGX_CONF_ERROR;
  *kept = upstream;
  front->init_upstream = upstream->peer.init_upstream ? upstream->peer.init_upstream : ngx_http_upstream_init_round_robin;
  upstream->peer.init_upstream = init_upstream;
  return NGX_CONF_OK;
}

/* ---- the module */

static void *create_main(ngx_conf_t *cf)
{
  struct front_main *front = ngx_pcalloc(cf->pool, sizeof *front);
  bool is_made = front && ngx_array_init(&front->trackers, cf->pool, 2, sizeof(struct front_tracker *)) == NGX_OK &&
                 ngx_array_init(&front->upstreams, cf->pool, 2, sizeof(ngx_http_upstream_srv_conf_t *)) == NGX_OK;
  return is_made ? front : NULL;
}

static void *create_upstream(ngx_conf_t *cf)
{
  return ngx_pcalloc(cf->pool, sizeof(struct front_upstream));
}

/* What comes after dmclock_track in an upstream would select servers around it, or in its place: requests then had no stamps, or the
   stamps of other servers. */
static ngx_int_t finish(ngx_conf_t *cf)
{
  struct front_main *front = ngx_http_conf_get_module_main_conf(cf, ngx_http_dmclock_track_module);
  ngx_http_upstream_srv_conf_t **upstreams = front->upstreams.elts;
  for (ngx_uint_t i = 0; i < front->upstreams.nelts; i++)
    if (upstreams[i]->peer.init_upstream != init_upstream) {
      ngx_log_error(NGX_LOG_EMERG, cf->log, 0,
                    "dmclock_track has to be the last one of the directives of the upstream \"%V\" that select a server or keep "
                    "connections", &upstreams[i]->host);
      return NGX_ERROR;
    }
  next_header_filter = ngx_http_top_header_filter;
  ngx_http_top_header_filter = filter_header;
  return NGX_OK;
}

static void close_trackers(ngx_cycle_t *cycle)
{
  struct front_main *front = ngx_http_cycle_get_module_main_conf(cycle, ngx_http_dmclock_track_module);
  struct front_tracker **trackers = front ? front->trackers.elts : NULL;
  for (ngx_uint_t i = 0; front && i < front->trackers.nelts; i++)
    tenants_close(&trackers[i]->tenants);
}

static ngx_command_t commands[] = {
  {ngx_string("dmclock_tracker"), NGX_HTTP_MAIN_CONF | NGX_CONF_2MORE, tracker_directive, NGX_HTTP_MAIN_CONF_OFFSET, 0, NULL},
  {ngx_string("dmclock_track"), NGX_HTTP_UPS_CONF | NGX_CONF_TAKE1, track_directive, NGX_HTTP_SRV_CONF_OFFSET, 0, NULL},
  ngx_null_command
};

static ngx_http_module_t context = {NULL, finish, create_main, NULL, create_upstream, NULL, NULL, NULL};

ngx_module_t ngx_http_dmclock_track_module = {
  NGX_MODULE_V1, &context, commands, NGX_HTTP_MODULE, NULL, NULL, NULL, NULL, NULL, close_trackers, NULL, NGX_MODULE_V1_PADDING
};
