/* Measures the proved calls side by side with the C twins, the second implementation in Rust and memcpy, and prints the tables that
 * docs/PERFORMANCE.md has.
 * usage: bench [MILLISECONDS], spent on each scene in all, 500 if not said */
#define _POSIX_C_SOURCE 200809L
#include "plan.h"
#include "rounds.h"

#include <stdio.h>
#include <stdlib.h>
#include <string.h>
#include <unistd.h>

static const double goal = 1.2;
static const double lookups_goal = 200000;
static const double salted_goal = 1.3;

/* Every scene is sat through several times, so that a busy minute of the machine is a small part of each. */
enum { SITTINGS = 5 };

static struct {
    struct scene scene;
    struct rounds rounds;
    struct times times;
} points[ROWS + 2 * LOOKUPS + 2 * ALIKES + GROWTH_POINTS * GROWTHS];
static int number;

/* The point of a scene; one more if it isn't there yet. */
static int point_of(const struct scene *scene)
{
    int i = 0;
    while (i < number && !same_scene(&points[i].scene, scene))
        i++;
    if (i == number)
        points[number++].scene = *scene;
    return i;
}

static const struct times *times_of(struct scene scene)
{
    return &points[point_of(&scene)].times;
}

static struct scene without_changes(struct scene scene)
{
    scene.changes = 0;
    return scene;
}

static void list_scenes(void)
{
    for (int i = 0; i < ROWS; i++)
        times_of(rows[i].scene);
    for (int i = 0; i < LOOKUPS; i++) {
        times_of(lookups[i].scene);
        times_of(without_changes(lookups[i].scene));
    }
    for (int i = 0; i < ALIKES; i++) {
        times_of(alikes[i].scene);
        times_of(at_random(alikes[i].scene));
    }
    for (int i = 0; i < GROWTHS; i++)
        for (int k = 0; k < GROWTH_POINTS; k++)
            times_of(growth_scene(&growths[i], k));
}

static void measure(double seconds)
{
    int shown = isatty(STDERR_FILENO);
    list_scenes();
    for (int i = 0; i < SITTINGS * number; i++) {
        if (shown)
            fprintf(stderr, "\rmeasuring %d of %d", i + 1, SITTINGS * number);
        sit(&points[i % number].rounds, &points[i % number].scene, seconds / SITTINGS);
    }
    for (int i = 0; i < number; i++)
        points[i].times = medians(&points[i].rounds);
    if (shown)
        fprintf(stderr, "\r%30s\r", "");
}

/* The faster of the C twins. */
static int best_c(const struct scene *scene, const struct times *times)
{
    return scene->call == BACKUP && times->of[C_HASH] < times->of[C_SCAN] ? C_HASH : C_SCAN;
}

/* Which twin that is, where there are two. */
static const char *search_of(const struct scene *scene, int column)
{
    return scene->call == BACKUP ? sides[column].name + 2 : "";
}

static void print_times(const struct scene *scene, const struct times *t)
{
    printf(" %.1f | %.1f |", t->of[PROVED] * 1e6, t->of[C_SCAN] * 1e6);
    if (scene->call == BACKUP)
        printf(" %.1f |", t->of[C_HASH] * 1e6);
    else
        printf(" |");
    printf(" %.1f | %.1f |", t->of[SECOND] * 1e6, t->of[MEMCPY] * 1e6);
}

static void speeds(void)
{
    int within = 0;
    printf("| call | proved, µs | C, µs | C hash, µs | Rust, µs | memcpy, µs | proved / C | proved / Rust |\n");
    printf("|---|---|---|---|---|---|---|---|\n");
    for (int i = 0; i < ROWS; i++) {
        const struct times *t = times_of(rows[i].scene);
        double ratio = t->of[PROVED] / t->of[best_c(&rows[i].scene, t)];
        within += ratio <= goal;
        printf("| %s |", rows[i].name);
        print_times(&rows[i].scene, t);
        printf(" %.2f | %.2f |\n", ratio, t->of[PROVED] / t->of[SECOND]);
    }
    printf("\n%d of %d rows are within %.1f of C.\n", within, ROWS, goal);
}

/* In thousands a second. */
static void print_rates(double changes, const struct times *t, const struct times *none, int column)
{
    printf(" %.0f | %.0f |", changes / (t->of[column] - none->of[column]) / 1e3, changes / t->of[column] / 1e3);
}

static void lookup_rates(void)
{
    int passed = 0;
    printf("\nThousand lookups a second: 1,024 / (time - time without changes), and 1,024 / time of the whole call.\n\n");
    printf("| 1,024 changes | proved | whole | C | whole | search | Rust | whole |\n");
    printf("|---|---|---|---|---|---|---|---|\n");
    for (int i = 0; i < LOOKUPS; i++) {
        const struct scene *scene = &lookups[i].scene;
        const struct times *t = times_of(*scene), *none = times_of(without_changes(*scene));
        int c = best_c(scene, t);
        passed += scene->changes / t->of[PROVED] >= lookups_goal;
        printf("| %s |", lookups[i].name);
        print_rates(scene->changes, t, none, PROVED);
        print_rates(scene->changes, t, none, c);
        printf(" %s |", search_of(scene, c));
        print_rates(scene->changes, t, none, SECOND);
        printf("\n");
    }
    printf("\n%d of %d pass %.0f lookups a second over the whole call.\n", passed, LOOKUPS, lookups_goal);
}

static void alike_fingerprints(void)
{
    int salted = 0, within = 0;
    printf("\nFingerprints alike: a backup of 1,024 changes where nothing else is said.\n\n");
    printf("| fingerprints | proved, µs | C, µs | C hash, µs | Rust, µs | memcpy, µs | proved / C | of random |\n");
    printf("|---|---|---|---|---|---|---|---|\n");
    for (int i = 0; i < ALIKES; i++) {
        const struct scene *scene = &alikes[i].scene;
        const struct times *t = times_of(*scene);
        double of_random = t->of[PROVED] / times_of(at_random(*scene))->of[PROVED];
        salted += is_salted(scene);
        within += is_salted(scene) && of_random <= salted_goal;
        printf("| %s |", alikes[i].name);
        print_times(scene, t);
        printf(" %.2f | %.2f |\n", t->of[PROVED] / t->of[best_c(scene, t)], of_random);
    }
    printf("\n%d of %d rows alike in up to 14 bytes are within %.1f of random.\n", within, salted, salted_goal);
}

static void print_line(const struct growth *growth, int column)
{
    double x[GROWTH_POINTS], time[GROWTH_POINTS];
    for (int k = 0; k < GROWTH_POINTS; k++) {
        x[k] = growth_at(growth, k);
        time[k] = times_of(growth_scene(growth, k))->of[column];
    }
    struct line line = fit(x, time, GROWTH_POINTS);
    printf(" %.1f | %.2f |", line.a * 1e6, line.b * 1e9);
}

static void growth_lines(void)
{
    static const char *const letters[] = { [BLOCKS] = "N", [RECORDS_USED] = "U", [CHANGES] = "n" };
    printf("\nTime = a + b·x, by least squares over %d sizes.\n\n", GROWTH_POINTS);
    printf("| call | x | from | to | proved a, µs | b, ns | C a, µs | b, ns | search | Rust a, µs | b, ns |\n");
    printf("|---|---|---|---|---|---|---|---|---|---|---|\n");
    for (int i = 0; i < GROWTHS; i++) {
        const struct growth *growth = &growths[i];
        struct scene last = growth_scene(growth, GROWTH_POINTS - 1);
        int c = best_c(&last, times_of(last));
        printf("| %s | %s | %u | %u |", growth->name, letters[growth->with], growth_at(growth, 0), growth_at(growth, GROWTH_POINTS - 1));
        print_line(growth, PROVED);
        print_line(growth, c);
        printf(" %s |", search_of(&last, c));
        print_line(growth, SECOND);
        printf("\n");
    }
}

int main(int argc, char **argv)
{
    char *end = "";
    long milliseconds = argc > 1 ? strtol(argv[1], &end, 10) : 500;
    if (argc > 2 || *end != '\0' || milliseconds <= 0) {
        fprintf(stderr, "usage: bench [MILLISECONDS]\n");
        return 2;
    }
    measure(1e-3 * (double)milliseconds);
    speeds();
    lookup_rates();
    alike_fingerprints();
    growth_lines();
    return 0;
}
