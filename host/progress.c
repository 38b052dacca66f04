#include "progress.h"

#include <stdbool.h>
#include <stdio.h>
#include <time.h>
#include <unistd.h>

enum { INTERVAL_MS = 100 };

static bool off, shown;
static long shown_at;

static long now_ms(void)
{
    struct timespec now;

    clock_gettime(CLOCK_MONOTONIC, &now);
    return (long)now.tv_sec * 1000 + now.tv_nsec / 1000000;
}

void progress_off(void)
{
    off = true;
}

void progress(const char *what, size_t done, size_t total)
{
    if (off || !isatty(STDERR_FILENO))
        return;
    if (shown && now_ms() - shown_at < INTERVAL_MS)
        return;
    fprintf(stderr, "\r\033[K%s: %zu of %zu blocks", what, done, total);
    fflush(stderr);
    shown = true;
    shown_at = now_ms();
}

void progress_end(void)
{
    if (shown)
        fprintf(stderr, "\r\033[K");
    shown = false;
}
