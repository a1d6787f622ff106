/* Names as others can read them, and numbers as others wrote them. A name is whatever a client sends: any bytes but 0, which should be
   UTF-8. */
#ifndef DMCLOCK_TEXT_H
#define DMCLOCK_TEXT_H

#include <stdbool.h>
#include <stddef.h>
#include <stdint.h>
#include <stdio.h>

/* Writes a JSON string. A byte that is no UTF-8 is written as the replacement character. */
void text_put_json(FILE *, const char *name);

/* Writes the value of a Prometheus label. A control character, and a byte that is no UTF-8, are written as \xNN. */
void text_put_label(FILE *, const char *name);

/* The longest text that `text_printable` returns, with its end. */
#define PRINTABLE_SIZE 124

/* A name in printable ASCII, for a log: any other byte is a question mark, and a name that is longer is cut off. Returns `text`. */
const char *text_printable(const char *name, char text[PRINTABLE_SIZE]);

/* Reads a number of decimal digits alone. False if it has other characters or none, or is more than `most`. */
bool text_read_number(const char *text, size_t length, uint64_t most, uint64_t *number);

/* Reads a number of bytes: decimal digits, and after them nothing, or B, kB, KiB, MB, MiB, GB or GiB. False if it is anything else, or
   more than `most`. */
bool text_read_bytes(const char *text, size_t length, uint64_t most, uint64_t *bytes);

#endif
