/* The commands. */
#ifndef ASPENBOX_COMMANDS_H
#define ASPENBOX_COMMANDS_H

#include "args.h"

/* All commands, and after the last a name that is null. */
extern const struct command commands[];

int run_format(const struct request *request);
int run_enrol(const struct request *request);
int run_backup(const struct request *request);
int run_collect(const struct request *request);
int run_retire(const struct request *request);
int run_read(const struct request *request);
int run_restore(const struct request *request);
int run_list(const struct request *request);
int run_audit(const struct request *request);
int run_tally(const struct request *request);
int run_scrub(const struct request *request);
int run_status(const struct request *request);
int run_book(const struct request *request);
int run_upgrade(const struct request *request);

#endif
