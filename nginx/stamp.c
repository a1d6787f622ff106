#include "stamp.h"

#include <inttypes.h>
#include <stdio.h>
#include <string.h>

#include "text.h"

#define MOST_DIGITS 10

static const char *const words[] = {
  [OUTCOME_RESERVATION] = "reservation", [OUTCOME_PRIORITY] = "priority", [OUTCOME_RETURNED] = "none", [OUTCOME_EXPIRED] = "expired",
};

const char *outcome_word(enum outcome outcome)
{
  return words[outcome];
}

enum outcome outcome_of(const char *word, size_t length)
{
  if (!word)
    return OUTCOME_RETURNED;
  for (enum outcome outcome = OUTCOME_RESERVATION; outcome < OUTCOME_EXPIRED; outcome++)
    if (strlen(words[outcome]) == length && memcmp(words[outcome], word, length) == 0)
      return outcome;
  return OUTCOME_EXPIRED;
}

bool stamp_read_count(const char *text, size_t length, uint32_t *count)
{
  uint64_t number;
  if (length > MOST_DIGITS || !text_read_number(text, length, UINT32_MAX, &number))
    return false;
  *count = (uint32_t)number;
  return true;
}

void stamp_write_abandoned(char text[ABANDONED_SIZE], const uint32_t costs[2])
{
  snprintf(text, ABANDONED_SIZE, "%" PRIu32 " %" PRIu32, costs[0], costs[1]);
}

bool stamp_read_abandoned(const char *text, size_t length, uint32_t costs[2])
{
  const char *blank = memchr(text, ' ', length);
  if (!blank)
    return false;
  size_t first = (size_t)(blank - text);
  return stamp_read_count(text, first, &costs[0]) && stamp_read_count(blank + 1, length - first - 1, &costs[1]);
}
