#include "module.h"

#include "clock.h"
#include "text.h"

/* The longest time of a setting, 31 years. */
#define MOST_SECONDS 1000000000

bool name_copy(const ngx_str_t *name, char *text)
{
  if (name->len >= NAME_SIZE || memchr(name->data, 0, name->len))
    return false;
  memcpy(text, name->data, name->len);
  text[name->len] = 0;
  return true;
}

char *text_of(ngx_conf_t *cf, const ngx_str_t *text)
{
  char *copy = ngx_pnalloc(cf->pool, text->len + 1);
  if (copy) {
    memcpy(copy, text->data, text->len);
    copy[text->len] = 0;
  }
  return copy;
}

/* ---- texts with variables */

/* Whether a word of a directive, which ends with a byte 0, is `$NAME` alone. What begins with a digit is no variable, but a part of what a
   regular expression matched. */
static bool is_variable(const ngx_str_t *word)
{
  static const char letters[] = "ABCDEFGHIJKLMNOPQRSTUVWXYZabcdefghijklmnopqrstuvwxyz_0123456789";
  const char *name = (const char *)word->data + 1;
  return word->len > 1 && word->data[0] == '$' && (*name < '0' || '9' < *name) && strspn(name, letters) == word->len - 1;
}

char *request_text_read(ngx_conf_t *cf, ngx_str_t *word, struct request_text *found)
{
  found->variable = NGX_ERROR;
  if (is_variable(word)) {
    ngx_str_t name = {word->len - 1, word->data + 1};
    found->variable = ngx_http_get_variable_index(cf, &name);
    return found->variable == NGX_ERROR ? NGX_CONF_ERROR : NGX_CONF_OK;
  }
  ngx_http_compile_complex_value_t compile = {.cf = cf, .value = word, .complex_value = &found->value};
  return ngx_http_compile_complex_value(&compile) == NGX_OK ? NGX_CONF_OK : NGX_CONF_ERROR;
}

bool request_text_is_fixed(const struct request_text *text)
{
  return text->variable == NGX_ERROR && text->value.lengths == NULL;
}

bool request_text_of(ngx_http_request_t *r, struct request_text *wanted, ngx_str_t *text)
{
  if (wanted->variable == NGX_ERROR)
    return ngx_http_complex_value(r, &wanted->value, text) == NGX_OK;
  const ngx_http_variable_value_t *value = ngx_http_get_flushed_variable(r, (ngx_uint_t)wanted->variable);
  bool is_found = value && !value->not_found;
  *text = is_found ? (ngx_str_t){value->len, value->data} : (ngx_str_t)ngx_string("");
  return true;
}

/* ---- directives */

char *params_bad(ngx_conf_t *cf, const ngx_str_t *word, const char *wanted)
{
  ngx_str_t *words = cf->args->elts;
  ngx_conf_log_error(NGX_LOG_EMERG, cf, 0, "%V: \"%V\": wanted is %s", &words[0], word, wanted);
  return NGX_CONF_ERROR;
}

char *params_number(ngx_conf_t *cf, const ngx_str_t *word, const ngx_str_t *value, uint32_t most, uint32_t *number)
{
  uint64_t found;
  if (text_read_number((const char *)value->data, value->len, most, &found) && found > 0) {
    *number = (uint32_t)found;
    return NGX_CONF_OK;
  }
  char wanted[64];
  snprintf(wanted, sizeof wanted, "a number from 1 to %u", most);
  return params_bad(cf, word, wanted);
}

char *params_time(ngx_conf_t *cf, const ngx_str_t *word, const ngx_str_t *value, uint64_t *nanos)
{
  ngx_int_t millis = ngx_parse_time((ngx_str_t *)value, 0);
  if (millis < 1 || millis / 1000 > MOST_SECONDS)
    return params_bad(cf, word, "a time from 1ms to 1000000000s");
  *nanos = (uint64_t)millis * MILLISECOND;
  return NGX_CONF_OK;
}

/* Whether a word is this parameter, and what follows its name. */
static bool is_param(const ngx_str_t *word, const char *name, ngx_str_t *value)
{
  size_t length = strlen(name);
  if (word->len < length || memcmp(word->data, name, length) != 0 || (name[length - 1] != '=' && word->len > length))
    return false;
  *value = (ngx_str_t){word->len - length, word->data + length};
  return true;
}

/* The place of a word's parameter; the end of them if it is none. */
static ngx_uint_t place_of(const ngx_str_t *word, const struct param *params, ngx_str_t *value)
{
  ngx_uint_t place = 0;
  while (params[place].name && !is_param(word, params[place].name, value))
    place++;
  return place;
}

/* Says which parameters there are. */
static char *params_unknown(ngx_conf_t *cf, const ngx_str_t *word, const struct param *params)
{
  char wanted[256] = "one of";
  for (; params->name; params++) {
    size_t length = strlen(wanted);
    snprintf(wanted + length, sizeof wanted - length, " %s", params->name);
  }
  return params_bad(cf, word, wanted);
}

char *params_read(ngx_conf_t *cf, ngx_uint_t from, const struct param *params, void *where)
{
  const ngx_str_t *words = cf->args->elts;
  uint64_t seen = 0;
  char *result = NGX_CONF_OK;
  for (ngx_uint_t i = from; i < cf->args->nelts && result == NGX_CONF_OK; i++) {
    ngx_str_t value;
    ngx_uint_t place = place_of(&words[i], params, &value);
    if (!params[place].name)
      return params_unknown(cf, &words[i], params);
    if (seen >> place & 1)
      return params_bad(cf, &words[i], "each parameter once");
    seen |= UINT64_C(1) << place;
    result = params[place].set(cf, where, &words[i], &value);
  }
  return result;
}
