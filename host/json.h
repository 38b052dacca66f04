/* One JSON object, built in memory and sent whole, so that an error on the way leaves no half of
 * one. A key is null inside an array. */
#ifndef ASPENBOX_JSON_H
#define ASPENBOX_JSON_H

#include <stdbool.h>
#include <stddef.h>
#include <stdint.h>

/* Starts the object; what was built before is dropped. */
void json_start(void);
/* Ends the object and makes it, with a newline, the answer. */
void json_send(void);

void json_open(const char *key, char bracket);
void json_close(char bracket);
void json_number(const char *key, long value);
void json_bool(const char *key, bool value);
void json_null(const char *key);
/* Bytes that aren't UTF-8 become U+FFFD. */
void json_string(const char *key, const char *value);
/* Two hexadecimal digits for each byte. */
void json_hex(const char *key, const uint8_t *bytes, size_t length);

#endif
