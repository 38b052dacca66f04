/* What --help and --version print. */
#ifndef ASPENBOX_HELP_H
#define ASPENBOX_HELP_H

#include "args.h"

struct option_name {
    const char *name;
    const char *value; /* how its value is shown, null if it has none */
};

extern const struct option_name option_names[OPTION_COUNT];

#define COMMON_OPTIONS (OPTION(JSON) | OPTION(NO_WAIT) | OPTION(HELP))

/* Help for a command, or for the program if it is null. */
_Noreturn void show_help(const struct command *command);
_Noreturn void show_version(void);

#endif
