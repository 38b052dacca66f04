#include "answer.h"

#include "memory.h"

#include <errno.h>
#include <unistd.h>

static struct bytes answer;

void answer_add(const void *bytes, size_t length)
{
    bytes_add(&answer, bytes, length);
}

bool answer_send(void)
{
    size_t sent = 0;

    while (sent < answer.length) {
        ssize_t put = write(STDOUT_FILENO, answer.at + sent, answer.length - sent);

        if (put < 0 && errno == EINTR)
            continue;
        if (put <= 0)
            return false;
        sent += (size_t)put;
    }
    bytes_free(&answer);
    return true;
}
