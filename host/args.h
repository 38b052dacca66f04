/* The command line. */
#ifndef ASPENBOX_ARGS_H
#define ASPENBOX_ARGS_H

#include <stdint.h>

enum option {
    OPTION_BLOCKS,
    OPTION_CELLS,
    OPTION_SLOTS,
    OPTION_JOURNAL,
    OPTION_DAY_ZERO,
    OPTION_KEEP,
    OPTION_DAY,
    OPTION_DAY_NUMBER,
    OPTION_AHEAD,
    OPTION_YES,
    OPTION_LATEST,
    OPTION_DATE,
    OPTION_LBNS,
    OPTION_FORCE,
    OPTION_HEAL,
    OPTION_WARN,
    OPTION_OLDER,
    OPTION_PROMETHEUS,
    OPTION_JSON,
    OPTION_NO_WAIT,
    OPTION_HELP,
    OPTION_VERSION,
    OPTION_COUNT
};

enum { WORDS_MAX = 65 };

struct command;

struct request {
    const struct command *command;
    const char *words[WORDS_MAX + 1];  /* what isn't an option; null after the last */
    const char *options[OPTION_COUNT]; /* the value, "" if it has none; null if not given */
};

/* A set of options. */
#define OPTION(name) (1U << OPTION_##name)

struct command {
    const char *name;
    const char *words;           /* how its words are shown */
    int least, most;             /* how many of them it takes */
    unsigned required, optional; /* its options; all commands take --json, --no-wait, --help */
    const char *help;
    int (*run)(const struct request *request); /* answers the status to end with */
};

/* Reads the command line. Answers --help and --version itself, and ends the program on what it
 * can't read. */
void args_read(struct request *request, int count, char **arguments);

/* A number from 0 to 65535; `what` names it in the message if it is none. */
uint16_t read_number(const char *what, const char *text);
/* The option as it is written. */
const char *option_text(enum option option);
/* The number that an option gives; the option has to be there. */
uint16_t option_number(const struct request *request, enum option option);

#endif
