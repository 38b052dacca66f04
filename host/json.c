#include "json.h"

#include "answer.h"
#include "memory.h"

#include <stdio.h>
#include <string.h>

static struct bytes text;
static bool comma; /* whether a comma comes before the next value */

static void add_text(const char *added)
{
    bytes_add(&text, added, strlen(added));
}

/* How many bytes the UTF-8 character here has, 0 if it is none. */
static size_t character_size(const unsigned char *at)
{
    static const struct {
        unsigned char mask, lead, low, high;
        size_t size;
    } kinds[] = {
        /* low and high bound the second byte: no overlong forms, no surrogates */
        {0xE0, 0xC0, 0x80, 0xBF, 2}, {0xFF, 0xE0, 0xA0, 0xBF, 3}, {0xFF, 0xED, 0x80, 0x9F, 3},
        {0xF0, 0xE0, 0x80, 0xBF, 3}, {0xFF, 0xF0, 0x90, 0xBF, 4}, {0xFF, 0xF4, 0x80, 0x8F, 4},
        {0xFC, 0xF0, 0x80, 0xBF, 4},
    };

    if (*at < 0x80)
        return 1;
    if (*at == 0xC0 || *at == 0xC1)
        return 0;
    for (size_t k = 0; k < sizeof kinds / sizeof kinds[0]; k++) {
        if ((*at & kinds[k].mask) != kinds[k].lead)
            continue;
        if (at[1] < kinds[k].low || at[1] > kinds[k].high)
            return 0;
        for (size_t i = 2; i < kinds[k].size; i++)
            if ((at[i] & 0xC0) != 0x80)
                return 0;
        return kinds[k].size;
    }
    return 0;
}

static void add_quoted(const char *value)
{
    const unsigned char *at = (const unsigned char *)value;

    add_text("\"");
    while (*at != 0) {
        size_t size = character_size(at);
        char escape[8];

        if (size == 0) {
            add_text("\\ufffd");
            size = 1;
        } else if (*at < 0x20 || *at == 0x7F || (*at == 0xC2 && at[1] < 0xA0)) {
            /* a control character; those above U+007F have their number in the second byte */
            snprintf(escape, sizeof escape, "\\u%04x", (unsigned)at[size - 1]);
            add_text(escape);
        } else {
            if (*at == '"' || *at == '\\')
                add_text("\\");
            bytes_add(&text, at, size);
        }
        at += size;
    }
    add_text("\"");
}

/* What stands before a value: a comma after another one, and the key. */
static void begin(const char *key)
{
    if (comma)
        add_text(",");
    if (key != NULL) {
        add_quoted(key);
        add_text(":");
    }
    comma = true;
}

void json_start(void)
{
    bytes_free(&text);
    comma = false;
    json_open(NULL, '{');
}

void json_send(void)
{
    json_close('}');
    add_text("\n");
    answer_add(text.at, text.length);
    bytes_free(&text);
}

void json_open(const char *key, char bracket)
{
    begin(key);
    bytes_add(&text, &bracket, 1);
    comma = false;
}

void json_close(char bracket)
{
    bytes_add(&text, &bracket, 1);
    comma = true;
}

void json_number(const char *key, long value)
{
    char digits[24];

    begin(key);
    snprintf(digits, sizeof digits, "%ld", value);
    add_text(digits);
}

void json_bool(const char *key, bool value)
{
    begin(key);
    add_text(value ? "true" : "false");
}

void json_null(const char *key)
{
    begin(key);
    add_text("null");
}

void json_string(const char *key, const char *value)
{
    begin(key);
    add_quoted(value);
}

void json_hex(const char *key, const uint8_t *bytes, size_t count)
{
    begin(key);
    add_text("\"");
    for (size_t i = 0; i < count; i++) {
        char digits[3];

        snprintf(digits, sizeof digits, "%02x", bytes[i]);
        add_text(digits);
    }
    add_text("\"");
}
