/* The page of dmclock_status: all zones and trackers of the worker that answers. */
#include "module.h"

#include "status.h"

/* ---- the text */

static const struct zone *const *zones_of(ngx_http_request_t *r, size_t *count)
{
  struct node_main *node = ngx_http_get_module_main_conf(r, ngx_http_dmclock_module);
  struct node_zone **zones = node->zones.elts;
  const struct zone **list = ngx_palloc(r->pool, (node->zones.nelts + 1) * sizeof *list);
  for (ngx_uint_t i = 0; list && i < node->zones.nelts; i++)
    list[i] = &zones[i]->zone;
  *count = node->zones.nelts;
  return list;
}

static const struct tenants *const *trackers_of(ngx_http_request_t *r, size_t *count)
{
  struct front_main *front = ngx_http_get_module_main_conf(r, ngx_http_dmclock_track_module);
  struct front_tracker **trackers = front->trackers.elts;
  const struct tenants **list = ngx_palloc(r->pool, (front->trackers.nelts + 1) * sizeof *list);
  for (ngx_uint_t i = 0; list && i < front->trackers.nelts; i++)
    list[i] = &trackers[i]->tenants;
  *count = front->trackers.nelts;
  return list;
}

/* Writes the text into memory that is to be freed. NULL if memory is short. */
static char *status_text(ngx_http_request_t *r, enum status_format format, size_t *length)
{
  struct status status;
  char *text = NULL;
  status.zones = zones_of(r, &status.zone_count);
  status.trackers = trackers_of(r, &status.tracker_count);
  FILE *stream = status.zones && status.trackers ? open_memstream(&text, length) : NULL;
  if (!stream)
    return NULL;
  if (format == STATUS_JSON)
    status_put_json(stream, &status);
  else
    status_put_prometheus(stream, &status);
  if (fclose(stream) == 0)
    return text;
  free(text);
  return NULL;
}

/* The text as the one part of a response, which is freed with the request. */
static ngx_buf_t *status_part(ngx_http_request_t *r, enum status_format format)
{
  size_t length = 0;
  ngx_buf_t *part = ngx_calloc_buf(r->pool);
  ngx_pool_cleanup_t *cleanup = ngx_pool_cleanup_add(r->pool, 0);
  char *text = part && cleanup ? status_text(r, format, &length) : NULL;
  if (!text)
    return NULL;
  cleanup->handler = free;
  cleanup->data = text;
  part->pos = (u_char *)text;
  part->last = part->pos + length;
  part->memory = length > 0;
  part->last_buf = r == r->main;
  part->last_in_chain = 1;
  return part;
}

/* ---- the response */

static ngx_int_t show_status(ngx_http_request_t *r)
{
  if (!(r->method & (NGX_HTTP_GET | NGX_HTTP_HEAD)))
    return NGX_HTTP_NOT_ALLOWED;
  ngx_int_t result = ngx_http_discard_request_body(r);
  if (result != NGX_OK)
    return result;
  struct node_location *location = ngx_http_get_module_loc_conf(r, ngx_http_dmclock_module);
  ngx_buf_t *part = status_part(r, location->status);
  if (!part)
    return NGX_HTTP_INTERNAL_SERVER_ERROR;
  r->headers_out.status = NGX_HTTP_OK;
  r->headers_out.content_length_n = part->last - part->pos;
  const char *type = location->status == STATUS_JSON ? "application/x-ndjson" : "text/plain; version=0.0.4";
  r->headers_out.content_type = (ngx_str_t){strlen(type), (u_char *)type};
  r->headers_out.content_type_len = r->headers_out.content_type.len;
  result = ngx_http_send_header(r);
  if (result == NGX_ERROR || result > NGX_OK || r->header_only)
    return result;
  ngx_chain_t response = {part, NULL};
  return ngx_http_output_filter(r, &response);
}

/* dmclock_status [prometheus | json] */
char *status_directive(ngx_conf_t *cf, ngx_command_t *command, void *where)
{
  ngx_str_t *words = cf->args->elts;
  struct node_location *location = where;
  ngx_http_core_loc_conf_t *core = ngx_http_conf_get_module_loc_conf(cf, ngx_http_core_module);
  bool is_json = cf->args->nelts > 1 && is_word(&words[1], "json");
  if (core->handler == show_status)
    return "is duplicate";
  if (cf->args->nelts > 1 && !is_json && !is_word(&words[1], "prometheus"))
    return params_bad(cf, &words[1], "prometheus or json");
  location->status = is_json ? STATUS_JSON : STATUS_PROMETHEUS;
  core->handler = show_status;
  return NGX_CONF_OK;
}
