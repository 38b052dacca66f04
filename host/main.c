/* aspenbox: the clinic backup box as a program on files. */
#include "commands.h"
#include "messages.h"
#include "streams.h"

/* How a day is given. */
#define DAYS (OPTION(DAY) | OPTION(DAY_NUMBER) | OPTION(AHEAD))

const struct command commands[] = {
    {"format", "DIR", 1, 1, OPTION(BLOCKS) | OPTION(CELLS) | OPTION(SLOTS) | OPTION(JOURNAL),
     OPTION(DAY_ZERO),
     "Makes a store in the folder DIR: a pool of N blocks of 512 bytes (up to 4096), volumes of\n"
     "L blocks (up to 1024), room for S backups (up to 1024) and J changes (up to 16384).\n"
     "Days count from DATE, by default from today.",
     run_format},
    {"enrol", "DIR VOLUME", 2, 2, OPTION(KEEP), 0,
     "Enrols a volume. Each backup is kept for DAYS days (up to 5000) from the day on which it was\n"
     "taken; the newest is always kept.",
     run_enrol},
    {"backup", "DIR VOLUME IMAGE", 3, 3, 0, DAYS,
     "Backs up the blocks of IMAGE in which it differs from the volume's last backup, as of DATE,\n"
     "by default today; D is the same as a number of days since day 0. A day later than tomorrow,\n"
     "or over 60 days after the box's, needs --ahead. IMAGE - is standard input.",
     run_backup},
    {"collect", "DIR", 1, 1, 0, DAYS,
     "Frees the blocks that no volume and no backup kept on that day needs, by default today.\n"
     "Days are given as for backup.",
     run_collect},
    {"retire", "DIR VOLUME", 2, 2, 0, DAYS | OPTION(YES),
     "Retires a volume whose aid has left, as of that day, by default today. Its backups can be\n"
     "read until their days run out, the newest too, which may be past them at once. It takes no\n"
     "backup any more, and its number is never used again. What ends is told first. Then it asks\n"
     "on a terminal, and elsewhere needs --yes. Days are given as for backup.",
     run_retire},
    {"read", "DIR VOLUME NUMBER LBN", 4, 4, 0, 0,
     "Writes to standard output the block that the volume had at this LBN in its backup of\n"
     "this number.",
     run_read},
    {"restore", "DIR VOLUME [NUMBER] OUT", 3, 4, 0,
     OPTION(LATEST) | OPTION(DATE) | OPTION(LBNS) | OPTION(FORCE),
     "Writes to the file OUT the image as it was in the volume's backup of this number, in the\n"
     "newest (--latest), or in the newest on or before DATE; with --lbns only these blocks of it.\n"
     "OUT - is standard output. A file that is there and not empty is only replaced with --force.",
     run_restore},
    {"list", "DIR [VOLUME]", 1, 2, 0, OPTION(DATE),
     "Lists the backups of a volume, or of all: number, date, kept until, changed blocks; and\n"
     "which of them restore takes with --latest, and with --date DATE.",
     run_list},
    {"status", "DIR", 1, 1, 0, OPTION(WARN) | OPTION(OLDER) | OPTION(PROMETHEUS),
     "Tells how full the store is, how old the newest backups are, and whether the book is sound.\n"
     "Ends with 1 if a part is PERCENT full, by default 90, or a newest backup is older than "
     "DAYS.\n"
     "--prometheus prints it for a node exporter.",
     run_status},
    {"audit", "DIR", 1, 1, 0, 0,
     "Replays the journal and compares: says whether the book is sound. It can't see the pool;\n"
     "see aspenbox scrub.",
     run_audit},
    {"tally", "DIR", 1, 1, 0, 0, "Counts the blocks: held, free, waiting for a collection.",
     run_tally},
    {"scrub", "DIR [IMAGE..]", 1, WORDS_MAX, 0, OPTION(HEAL),
     "Hashes every held block again and names those whose bytes don't fit their fingerprint. With\n"
     "--heal the bytes are first brought back from the images that have them.",
     run_scrub},
    {"book", "DIR", 1, 1, 0, 0,
     "Writes to standard output the book alone, for the program tally and others.", run_book},
    {"upgrade", "DIR", 1, 1, 0, OPTION(FORCE),
     "Brings a store that an earlier aspenbox made to the layout of this one. Earlier versions of\n"
     "aspenbox refuse the store from then on. Backups that can be read now and not afterwards are\n"
     "named, and nothing is done without --force.",
     run_upgrade},
    {0},
};

int main(int count, char **arguments)
{
    struct request request;
    int status;

    streams_secure();
    args_read(&request, count, arguments);
    status = request.command->run(&request);
    flush_answer();
    return status;
}
