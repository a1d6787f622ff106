#include "text.h"

#include <string.h>

/* The bytes of the character of UTF-8 that begins here, or 0 if none does. */
static size_t character_length(const unsigned char *at)
{
  size_t length = *at < 0x80 ? 1 : 0xc2 <= *at && *at < 0xe0 ? 2 : 0xe0 <= *at && *at < 0xf0 ? 3 : 0xf0 <= *at && *at < 0xf5 ? 4 : 0;
  for (size_t i = 1; i < length; i++)
    if ((at[i] & 0xc0) != 0x80)
      return 0;
  bool is_overlong = (*at == 0xe0 && at[1] < 0xa0) || (*at == 0xf0 && at[1] < 0x90);
  bool is_beyond = (*at == 0xed && 0xa0 <= at[1]) || (*at == 0xf4 && 0x90 <= at[1]);
  return is_overlong || is_beyond ? 0 : length;
}

static bool is_control(unsigned char byte)
{
  return byte < 0x20 || byte == 0x7f;
}

static bool is_quoted(unsigned char byte)
{
  return byte == '"' || byte == '\\';
}

void text_put_json(FILE *text, const char *name)
{
  const unsigned char *at = (const unsigned char *)name;
  putc('"', text);
  while (*at) {
    size_t length = character_length(at);
    if (length == 0)
      fputs("\\ufffd", text);
    else if (is_control(*at))
      fprintf(text, "\\u%04x", *at);
    else
      fprintf(text, "%s%.*s", is_quoted(*at) ? "\\" : "", (int)length, (const char *)at);
    at += length ? length : 1;
  }
  putc('"', text);
}

void text_put_label(FILE *text, const char *name)
{
  const unsigned char *at = (const unsigned char *)name;
  putc('"', text);
  while (*at) {
    size_t length = character_length(at);
    if (*at == '\n')
      fputs("\\n", text);
    else if (length == 0 || is_control(*at))
      fprintf(text, "\\\\x%02x", *at);
    else
      fprintf(text, "%s%.*s", is_quoted(*at) ? "\\" : "", (int)length, (const char *)at);
    at += length ? length : 1;
  }
  putc('"', text);
}

const char *text_printable(const char *name, char text[PRINTABLE_SIZE])
{
  size_t length = 0;
  for (; name[length] && length < PRINTABLE_SIZE - 3; length++)
    text[length] = ' ' <= name[length] && name[length] <= '~' ? name[length] : '?';
  memcpy(text + length, name[length] ? ".." : "", name[length] ? 3 : 1);
  return text;
}

bool text_read_number(const char *text, size_t length, uint64_t most, uint64_t *number)
{
  uint64_t value = 0;
  for (size_t i = 0; i < length; i++) {
    uint64_t digit = (uint64_t)(text[i] - '0');
    if (text[i] < '0' || '9' < text[i] || most < digit || (most - digit) / 10 < value)
      return false;
    value = 10 * value + digit;
  }
  *number = value;
  return length > 0;
}

/* How many bytes a suffix stands for; 0 if it is none. */
static uint64_t bytes_of(const char *suffix, size_t length)
{
  static const struct {
    const char *name;
    uint64_t bytes;
  } suffixes[] = {{"", 1}, {"B", 1}, {"kB", 1000}, {"KiB", 1 << 10}, {"MB", 1000000}, {"MiB", 1 << 20}, {"GB", 1000000000}, {"GiB", 1 << 30}};
  for (size_t i = 0; i < sizeof suffixes / sizeof *suffixes; i++)
    if (strlen(suffixes[i].name) == length && strncmp(suffixes[i].name, suffix, length) == 0)
      return suffixes[i].bytes;
  return 0;
}

bool text_read_bytes(const char *text, size_t length, uint64_t most, uint64_t *bytes)
{
  size_t digits = 0;
  while (digits < length && '0' <= text[digits] && text[digits] <= '9')
    digits++;
  uint64_t each = bytes_of(text + digits, length - digits);
  if (!each || !text_read_number(text, digits, most / each, bytes))
    return false;
  *bytes *= each;
  return true;
}
