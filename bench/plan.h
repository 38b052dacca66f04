/* The scenes that are measured, table by table. */
#ifndef ASPEN_BENCH_PLAN_H
#define ASPEN_BENCH_PLAN_H

#include "scene.h"

struct row {
    const char *name;
    struct scene scene;
};

/* How the time of a scene grows with N, U or n. */
struct growth {
    const char *name;
    enum with { BLOCKS, RECORDS_USED, CHANGES } with;
    struct scene scene;
};

enum { ROWS = 39, LOOKUPS = 6, ALIKES = 30, GROWTHS = 19, GROWTH_POINTS = 5 };

extern const struct row rows[ROWS];

/* Backups of 1,024 changes, for lookups a second. */
extern const struct row lookups[LOOKUPS];

/* Fingerprints alike, beside some at random. */
extern const struct row alikes[ALIKES];

/* Whether the goal is for it: up to 14 bytes at one end are alike. */
bool is_salted(const struct scene *scene);

/* The scene with fingerprints at random. */
struct scene at_random(struct scene scene);

extern const struct growth growths[GROWTHS];

/* N, U or n of a growth's point, and its scene. */
unsigned growth_at(const struct growth *growth, int point);
struct scene growth_scene(const struct growth *growth, int point);

#endif
