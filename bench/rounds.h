/* Times: the sides take turns, and the median of many rounds counts. */
#ifndef ASPEN_BENCH_ROUNDS_H
#define ASPEN_BENCH_ROUNDS_H

#include "scene.h"

/* memcpy comes after the sides. */
enum { MEMCPY = SIDES, COLUMNS };

/* What each column took, in seconds, round by round. */
enum { MOST_ROUNDS = 1000 };
struct rounds {
    int number;
    double took[COLUMNS][MOST_ROUNDS];
};

/* A sitting: rounds on a scene for about this many seconds, from 3 to 200 of them. The first compares the sides before. */
void sit(struct rounds *rounds, const struct scene *scene, double seconds);

/* The median of each column. */
struct times {
    double of[COLUMNS];
};

struct times medians(struct rounds *rounds);

/* time = a + b·x. */
struct line {
    double a, b;
};

/* By least squares. */
struct line fit(const double *x, const double *time, int points);

#endif
