#include "args.h"

#include "commands.h"
#include "help.h"
#include "messages.h"
#include "progress.h"

#include <errno.h>
#include <stdbool.h>
#include <stdlib.h>
#include <string.h>

const struct option_name option_names[OPTION_COUNT] = {
    [OPTION_BLOCKS] = {"--blocks", "N"},
    [OPTION_CELLS] = {"--cells", "L"},
    [OPTION_SLOTS] = {"--slots", "S"},
    [OPTION_JOURNAL] = {"--journal", "J"},
    [OPTION_DAY_ZERO] = {"--day-zero", "DATE"},
    [OPTION_KEEP] = {"--keep", "DAYS"},
    [OPTION_DAY] = {"--day", "DATE"},
    [OPTION_DAY_NUMBER] = {"--day-number", "D"},
    [OPTION_AHEAD] = {"--ahead", NULL},
    [OPTION_YES] = {"--yes", NULL},
    [OPTION_LATEST] = {"--latest", NULL},
    [OPTION_DATE] = {"--date", "DATE"},
    [OPTION_LBNS] = {"--lbns", "A-B"},
    [OPTION_FORCE] = {"--force", NULL},
    [OPTION_HEAL] = {"--heal", NULL},
    [OPTION_WARN] = {"--warn", "PERCENT"},
    [OPTION_OLDER] = {"--older", "DAYS"},
    [OPTION_PROMETHEUS] = {"--prometheus", NULL},
    [OPTION_JSON] = {"--json", NULL},
    [OPTION_NO_WAIT] = {"--no-wait", NULL},
    [OPTION_HELP] = {"--help", NULL},
    [OPTION_VERSION] = {"--version", NULL},
};

/* The option that an argument names, which may go on with = and its value. */
static enum option find_option(const struct request *request, const char *argument)
{
    size_t length = strcspn(argument, "=");

    for (enum option o = 0; o < OPTION_COUNT; o++)
        if (strncmp(option_names[o].name, argument, length) == 0 &&
            option_names[o].name[length] == '\0')
            return o;
    fail(STATUS_USAGE, "there is no option %s; see aspenbox %s%s--help", argument,
         request->command != NULL ? request->command->name : "",
         request->command != NULL ? " " : "");
}

/* Reads the option at arguments[at]; answers where the next argument is. */
static int read_option(struct request *request, int count, char **arguments, int at)
{
    enum option option = find_option(request, arguments[at]);
    const struct option_name *name = &option_names[option];
    char *value = strchr(arguments[at], '=');

    if (request->options[option] != NULL)
        fail(STATUS_USAGE, "%s is given twice", name->name);
    if (name->value == NULL) {
        if (value != NULL)
            fail(STATUS_USAGE, "%s takes no value", name->name);
        request->options[option] = "";
        return at + 1;
    }
    if (value != NULL) {
        request->options[option] = value + 1;
        return at + 1;
    }
    /* A value that looks like an option is one, which was meant to follow the value. */
    if (at + 1 >= count || strncmp(arguments[at + 1], "--", 2) == 0)
        fail(STATUS_USAGE, "%s wants a value: %s %s", name->name, name->name, name->value);
    request->options[option] = arguments[at + 1];
    return at + 2;
}

static void find_command(struct request *request, const char *name)
{
    for (const struct command *c = commands; c->name != NULL; c++)
        if (strcmp(c->name, name) == 0)
            request->command = c;
    if (request->command == NULL)
        fail(STATUS_USAGE, "there is no command %s; see aspenbox --help", name);
}

static void take_word(struct request *request, int *words, const char *word)
{
    if (request->command == NULL) {
        find_command(request, word);
        return;
    }
    if (*words >= request->command->most)
        fail(STATUS_USAGE, "%s is one word too many; see aspenbox %s --help", word,
             request->command->name);
    request->words[(*words)++] = word;
}

static void check_complete(const struct request *request, int words)
{
    const struct command *command = request->command;
    unsigned taken = command->required | command->optional | COMMON_OPTIONS;

    if (words < command->least)
        fail(STATUS_USAGE, "%s wants %s; see aspenbox %s --help", command->name, command->words,
             command->name);
    for (enum option o = 0; o < OPTION_COUNT; o++) {
        const struct option_name *name = &option_names[o];

        if (request->options[o] != NULL && (taken >> o & 1) == 0)
            fail(STATUS_USAGE, "%s takes no %s; see aspenbox %s --help", command->name, name->name,
                 command->name);
        if (request->options[o] == NULL && (command->required >> o & 1) != 0)
            fail(STATUS_USAGE, "%s wants %s %s; see aspenbox %s --help", command->name, name->name,
                 name->value, command->name);
    }
}

/* Looked for first, so that an error in reading the rest is said the right way. */
static void find_json(int count, char **arguments)
{
    for (int i = 1; i < count && strcmp(arguments[i], "--") != 0; i++)
        if (strcmp(arguments[i], "--json") == 0) {
            messages_as_json(true);
            progress_off();
        }
}

void args_read(struct request *request, int count, char **arguments)
{
    int words = 0, at = 1;
    bool options_end = false;

    memset(request, 0, sizeof *request);
    find_json(count, arguments);
    while (at < count) {
        const char *argument = arguments[at];

        if (options_end || argument[0] != '-' || strcmp(argument, "-") == 0) {
            take_word(request, &words, argument);
            at++;
        } else if (strcmp(argument, "--") == 0) {
            options_end = true;
            at++;
        } else {
            at = read_option(request, count, arguments, at);
        }
    }
    if (request->options[OPTION_HELP] != NULL)
        show_help(request->command);
    if (request->options[OPTION_VERSION] != NULL)
        show_version();
    if (request->command == NULL)
        fail(STATUS_USAGE, "which command? see aspenbox --help");
    check_complete(request, words);
}

uint16_t read_number(const char *what, const char *text)
{
    char *end;
    unsigned long number;

    errno = 0;
    number = strtoul(text, &end, 10);
    if (text[0] < '0' || text[0] > '9' || *end != '\0' || errno != 0 || number > UINT16_MAX)
        fail(STATUS_USAGE, "%s %s is no number from 0 to %d", what, text, UINT16_MAX);
    return (uint16_t)number;
}

const char *option_text(enum option option)
{
    return option_names[option].name;
}

uint16_t option_number(const struct request *request, enum option option)
{
    return read_number(option_names[option].name, request->options[option]);
}
