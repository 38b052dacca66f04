#include "messages.h"

#include "answer.h"
#include "json.h"
#include "memory.h"
#include "progress.h"

#include <errno.h>
#include <stdarg.h>
#include <stdio.h>
#include <stdlib.h>
#include <string.h>

static bool as_json;
static char **notes; /* that weren't written yet */
static size_t notes_count;

void messages_as_json(bool json)
{
    as_json = json;
}

bool messages_json(void)
{
    return as_json;
}

/* How many bytes the control character here has, 0 if it is none. Those above U+007F are two bytes
 * in UTF-8. */
static size_t control_size(const unsigned char *at)
{
    if (*at < 0x20 || *at == 0x7F)
        return 1;
    return at[0] == 0xC2 && at[1] >= 0x80 && at[1] < 0xA0 ? 2 : 0;
}

/* A text as it is shown; `text` is freed. */
static char *shown(char *text)
{
    struct bytes made = bytes_new(0);

    for (const unsigned char *at = (unsigned char *)text; *at != 0;) {
        size_t control = control_size(at);
        char escape[8];

        for (size_t i = 0; i < control; i++) {
            snprintf(escape, sizeof escape, "\\x%02x", at[i]);
            bytes_add(&made, escape, strlen(escape));
        }
        if (control == 0)
            bytes_add(&made, at, 1);
        at += control == 0 ? 1 : control;
    }
    bytes_add(&made, "", 1);
    free(text);
    return (char *)made.at;
}

/* In JSON the text stays as it is: there control characters are escaped by themselves. */
static char *worded(const char *format, va_list arguments)
{
    char *text = text_from(format, arguments);

    return as_json ? text : shown(text);
}

void say(const char *format, ...)
{
    va_list arguments;
    char *line;

    va_start(arguments, format);
    line = shown(text_from(format, arguments));
    va_end(arguments);
    answer_add(line, strlen(line));
    answer_add("\n", 1);
    free(line);
}

static void error_to_json(enum status status, unsigned number, const char *message)
{
    json_start();
    json_open("error", '{');
    json_number("status", status);
    if (number != 0)
        json_number("refused", number);
    json_string("message", message);
    json_close('}');
    notes_to_json();
    json_send();
}

static void add_note(char *text)
{
    notes = resized(notes, (notes_count + 1) * sizeof *notes);
    notes[notes_count++] = text;
}

/* Writes the notes, but for those that are in the answer. */
static void send_notes(void)
{
    progress_end();
    for (size_t i = 0; i < notes_count; i++) {
        if (!as_json)
            fprintf(stderr, "aspenbox: note: %s\n", notes[i]);
        free(notes[i]);
    }
    free(notes);
    notes = NULL;
    notes_count = 0;
}

static _Noreturn void end(enum status status, unsigned number, const char *message)
{
    if (as_json)
        error_to_json(status, number, message);
    send_notes();
    answer_send();
    if (!as_json && number != 0)
        fprintf(stderr, "aspenbox: refused %u: %s\n", number, message);
    else if (!as_json)
        fprintf(stderr, "aspenbox: %s\n", message);
    exit(status);
}

void fail(enum status status, const char *format, ...)
{
    va_list arguments;
    char *message;

    va_start(arguments, format);
    message = worded(format, arguments);
    va_end(arguments);
    end(status, 0, message);
}

void fail_refused(enum status status, unsigned number, const char *format, ...)
{
    va_list arguments;
    char *message;

    va_start(arguments, format);
    message = worded(format, arguments);
    va_end(arguments);
    end(status, number, message);
}

void note(const char *format, ...)
{
    va_list arguments;

    va_start(arguments, format);
    add_note(worded(format, arguments));
    va_end(arguments);
}

void note_now(const char *format, ...)
{
    va_list arguments;

    va_start(arguments, format);
    add_note(worded(format, arguments));
    va_end(arguments);
    notes_now();
}

void notes_now(void)
{
    if (!as_json)
        send_notes();
}

void notes_to_json(void)
{
    if (notes_count == 0)
        return;
    json_open("notes", '[');
    for (size_t i = 0; i < notes_count; i++)
        json_string(NULL, notes[i]);
    json_close(']');
}

void flush_answer(void)
{
    send_notes();
    if (!answer_send()) {
        fprintf(stderr, "aspenbox: done, but the answer can't be printed: %s\n", strerror(errno));
        exit(STATUS_FILES);
    }
}
