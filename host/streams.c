#include "streams.h"

#include "status.h"

#include <errno.h>
#include <fcntl.h>
#include <unistd.h>

void streams_secure(void)
{
    for (int fd = STDIN_FILENO; fd <= STDERR_FILENO; fd++) {
        /* Opened the other way round, so that a use of it fails. */
        int flags = fd == STDIN_FILENO ? O_WRONLY : O_RDONLY;

        if (fcntl(fd, F_GETFD) >= 0 || errno != EBADF)
            continue;
        if (open("/dev/null", flags, 0) != fd)
            _exit(STATUS_FILES);
    }
}
