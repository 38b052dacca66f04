/* A disk that doesn't keep what it is given: linked with --wrap=rename, changes a byte of every
 * file that a rename calls book. */
#include <fcntl.h>
#include <stdio.h>
#include <string.h>
#include <unistd.h>

int __real_rename(const char *from, const char *to);
int __wrap_rename(const char *from, const char *to);

static void spoil(const char *path)
{
    int fd = open(path, O_RDWR);
    unsigned char byte;

    if (fd < 0 || pread(fd, &byte, 1, 40) != 1)
        return;
    byte ^= 1;
    if (pwrite(fd, &byte, 1, 40) != 1)
        perror(path);
    close(fd);
}

int __wrap_rename(const char *from, const char *to)
{
    const char *slash = strrchr(to, '/');
    int result = __real_rename(from, to);

    if (result == 0 && slash != NULL && strcmp(slash, "/book") == 0)
        spoil(to);
    return result;
}
