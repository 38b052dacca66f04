#define _POSIX_C_SOURCE 200809L
#include "rounds.h"

#include <stdlib.h>
#include <time.h>

enum { FEWEST = 3, MOST = 200 };

static double seconds_of(clockid_t clock)
{
    struct timespec t;
    clock_gettime(clock, &t);
    return (double)t.tv_sec + 1e-9 * (double)t.tv_nsec;
}

/* This program's time on a core. While others are on it, that stands still. */
static double now(void)
{
    return seconds_of(CLOCK_PROCESS_CPUTIME_ID);
}

static int ascending(const void *a, const void *b)
{
    double x = *(const double *)a, y = *(const double *)b;
    return (x > y) - (x < y);
}

static double median(double *v, int n)
{
    qsort(v, (size_t)n, sizeof v[0], ascending);
    return n % 2 == 1 ? v[n / 2] : (v[n / 2 - 1] + v[n / 2]) / 2;
}

/* What looking at the clock takes. */
static double clock_time(void)
{
    double took[MOST];
    for (int i = 0; i < MOST; i++) {
        double began = now();
        took[i] = now() - began;
    }
    return median(took, MOST);
}

/* The state is put back outside of the time taken. */
static double time_once(struct stage *stage, int column)
{
    stage_restore(stage);
    double began = now();
    if (column == MEMCPY)
        stage_move(stage);
    else
        stage_call(stage, &sides[column]);
    return now() - began;
}

/* Each round starts with another column, so that none always follows the same one. The C twins differ in backup only. */
static void one_round(struct rounds *rounds, struct stage *stage, double looking)
{
    int i = rounds->number++;
    for (int k = 0; k < COLUMNS; k++) {
        int column = (i + k) % COLUMNS;
        bool twice = column == C_HASH && stage->scene.call != BACKUP;
        rounds->took[column][i] = twice ? 0 : time_once(stage, column) - looking;
    }
}

void sit(struct rounds *rounds, const struct scene *scene, double seconds)
{
    static struct stage stage;
    int least = rounds->number + FEWEST, most = rounds->number + MOST;
    stage_set(&stage, scene);
    if (rounds->number == 0)
        stage_compare(&stage);
    double looking = clock_time(), end = seconds_of(CLOCK_MONOTONIC) + seconds;
    while (rounds->number < MOST_ROUNDS
           && (rounds->number < least || (rounds->number < most && seconds_of(CLOCK_MONOTONIC) < end)))
        one_round(rounds, &stage, looking);
}

struct times medians(struct rounds *rounds)
{
    struct times times;
    for (int c = 0; c < COLUMNS; c++)
        times.of[c] = median(rounds->took[c], rounds->number);
    return times;
}

struct line fit(const double *x, const double *time, int points)
{
    double mean_x = 0, mean_time = 0, together = 0, alone = 0;
    for (int i = 0; i < points; i++) {
        mean_x += x[i] / points;
        mean_time += time[i] / points;
    }
    for (int i = 0; i < points; i++) {
        together += (x[i] - mean_x) * (time[i] - mean_time);
        alone += (x[i] - mean_x) * (x[i] - mean_x);
    }
    double b = together / alone;
    return (struct line){ mean_time - b * mean_x, b };
}
