/* dmclock_cost: what a request costs, by its variables. */
#include "module.h"

#include "text.h"

/* What a request costs at most, if the settings do not say it: 256 MiB in units of 4 KiB. What a client says of its request may be
   anything, and tags have an end: at this cost the queue's are years away from it, and at 2^32-1 hours. */
#define MOST_COST 65536

struct cost_setting {
  struct request_text value;
  uint32_t unit; /* how much of the value costs 1 */
  uint32_t most;
};

/* What a number costs: 1 for each unit that it begins, 1 at least, and no more than the most. */
static uint32_t cost_of(const struct cost_setting *setting, uint64_t number)
{
  uint64_t units = number / setting->unit + (number % setting->unit != 0);
  return units == 0 ? 1 : units < setting->most ? (uint32_t)units : setting->most;
}

uint32_t request_cost(ngx_http_request_t *r)
{
  struct node_location *location = ngx_http_get_module_loc_conf(r, ngx_http_dmclock_module);
  ngx_str_t text;
  uint64_t number;
  if (!location->cost || !request_text_of(r, &location->cost->value, &text) ||
      !text_read_number((const char *)text.data, text.len, UINT64_MAX, &number))
    return 1;
  return cost_of(location->cost, number);
}

/* ---- dmclock_cost VALUE [unit=SIZE] [most=N] */

static char *set_unit(ngx_conf_t *cf, void *setting, const ngx_str_t *word, const ngx_str_t *value)
{
  ngx_str_t text = *value;
  ssize_t size = ngx_parse_size(&text);
  if (size < 1 || UINT32_MAX < size)
    return params_bad(cf, word, "a size from 1 to 4294967295 bytes");
  ((struct cost_setting *)setting)->unit = (uint32_t)size;
  return NGX_CONF_OK;
}

static char *set_most(ngx_conf_t *cf, void *setting, const ngx_str_t *word, const ngx_str_t *value)
{
  return params_number(cf, word, value, UINT32_MAX, &((struct cost_setting *)setting)->most);
}

static const struct param cost_params[] = {{"unit=", set_unit}, {"most=", set_most}, {NULL, NULL}};

/* A number of the settings that costs more than the most would cost less than they say, in each request. */
static char *check_fixed(ngx_conf_t *cf, const struct cost_setting *setting, const ngx_str_t *word)
{
  uint64_t number, most = (uint64_t)setting->unit * setting->most;
  if (!text_read_number((const char *)word->data, word->len, UINT64_MAX, &number) || number == 0)
    return params_bad(cf, word, "a number from 1 on, or a text with variables");
  if (number <= most)
    return NGX_CONF_OK;
  char wanted[96];
  snprintf(wanted, sizeof wanted, "a number up to %llu, so that a request costs no more than most=%u", (unsigned long long)most, setting->most);
  return params_bad(cf, word, wanted);
}

char *cost_directive(ngx_conf_t *cf, ngx_command_t *command, void *where)
{
  ngx_str_t *words = cf->args->elts;
  struct node_location *location = where;
  if (location->cost != NGX_CONF_UNSET_PTR)
    return "is duplicate";
  struct cost_setting *setting = ngx_pcalloc(cf->pool, sizeof *setting);
  if (!setting)
    return NGX_CONF_ERROR;
  location->cost = setting;
  setting->unit = 1;
  setting->most = MOST_COST;
  if (request_text_read(cf, &words[1], &setting->value) != NGX_CONF_OK || params_read(cf, 2, cost_params, setting) != NGX_CONF_OK)
    return NGX_CONF_ERROR;
  return request_text_is_fixed(&setting->value) ? check_fixed(cf, setting, &words[1]) : NGX_CONF_OK;
}
