/* The statuses that the program ends with. */
#ifndef ASPENBOX_STATUS_H
#define ASPENBOX_STATUS_H

enum status {
    STATUS_DONE = 0,
    STATUS_UNSOUND = 1, /* the book or bytes of the pool are damaged, or a warning of status */
    STATUS_USAGE = 2,   /* the command line or a file that it names can't be used */
    STATUS_REFUSED = 3, /* the box refused the call */
    STATUS_FILES = 4,   /* the file system failed */
    STATUS_STORE = 5,   /* the folder is no store, a damaged one, or one of another layout */
    STATUS_BUSY = 6     /* another aspenbox uses the store, and --no-wait was given */
};

#endif
