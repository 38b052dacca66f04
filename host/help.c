#include "help.h"

#include "answer.h"
#include "commands.h"
#include "json.h"
#include "memory.h"
#include "messages.h"

#include <stdlib.h>
#include <string.h>

static struct bytes text; /* what is shown */

static void add(const char *added)
{
    bytes_add(&text, added, strlen(added));
}

static void add_option(const struct option_name *name, const char *before, const char *after)
{
    add(before);
    add(name->name);
    if (name->value != NULL) {
        add(" ");
        add(name->value);
    }
    add(after);
}

static void add_synopsis(const struct command *command)
{
    add("aspenbox ");
    add(command->name);
    add(" ");
    add(command->words);
    for (enum option o = 0; o < OPTION_COUNT; o++) {
        if ((command->required >> o & 1) != 0)
            add_option(&option_names[o], " ", "");
        if ((command->optional >> o & 1) != 0)
            add_option(&option_names[o], " [", "]");
    }
    add("\n");
}

static void add_commands(void)
{
    add("aspenbox: backups of speech aids, in a store of one folder\n\n");
    for (const struct command *c = commands; c->name != NULL; c++) {
        add("  ");
        add_synopsis(c);
    }
    add("\nVOLUME is 0 to 7, an aid each. A DATE is like 2026-01-31.\n"
        "aspenbox COMMAND --help tells more, and so does man aspenbox.\n");
}

/* Ends with the text as the answer. */
static _Noreturn void show(const char *key)
{
    if (messages_json()) {
        text.length--; /* the last newline */
        bytes_add(&text, "", 1);
        json_start();
        json_string(key, (const char *)text.at);
        json_send();
    } else {
        answer_add(text.at, text.length);
    }
    flush_answer();
    exit(STATUS_DONE);
}

void show_help(const struct command *command)
{
    if (command != NULL) {
        add("usage: ");
        add_synopsis(command);
        add("\n");
        add(command->help);
        add("\n");
    } else {
        add_commands();
    }
    add("\nEvery command takes\n"
        "  --json     answer, or tell what went wrong, as one JSON object on standard output\n"
        "  --no-wait  end with 6 if another aspenbox uses the store, and don't wait for it\n"
        "\nIt ends with 0 done, 1 damaged or a warning, 2 can't be used as given,\n"
        "3 refused by the box, 4 file system failed, 5 no store, a damaged one or one of another\n"
        "layout, 6 busy.\n");
    show("help");
}

void show_version(void)
{
    add("aspenbox " ASPENBOX_VERSION "\n"); /* from the build, which has it from aspen.pc.in */
    show("version");
}
