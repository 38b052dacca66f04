/* images DAY FOLDER: writes the eight volumes as they are on a backup day, 0 being the first, to FOLDER/volume-0.img and so on. The same day
 * gives the same bytes in every run.
 *
 * At first all blocks come from a vocabulary that the aids share. Each day after, CHANGED blocks of each volume change, alternately to another
 * block of the vocabulary and to one that no volume ever had. */
#include <errno.h>
#include <stdint.h>
#include <stdio.h>
#include <stdlib.h>
#include <string.h>

/* 5 % of 1,024 blocks is 51. With a larger vocabulary the new blocks of a month don't fit into a pool of 4,096 blocks. */
enum { VOLUMES = 8, BLOCKS = 1024, BLOCK_SIZE = 512, CHANGED = 51, VOCABULARY = 384, LAST_DAY = 366 };

/* A block is known by a number: below VOCABULARY it is one of the vocabulary, from there on it is new. */
static uint64_t volumes[VOLUMES][BLOCKS];
static uint64_t next_new = VOCABULARY;
static uint64_t state = 20260105;

/* A number that depends on `from` alone, with all bits mixed. */
static uint64_t mixed(uint64_t from)
{
    for (int i = 0; i < 3; i++)
        from = (from ^ from >> 29) * 0x9FB21C651E98DF25u + 0x632BE59BD9B4E019u;
    return from ^ from >> 32;
}

static size_t below(size_t limit)
{
    return mixed(++state) % limit;
}

static uint64_t other_word(uint64_t word)
{
    uint64_t chosen;

    do
        chosen = below(VOCABULARY);
    while (chosen == word);
    return chosen;
}

static void first_day(void)
{
    for (size_t v = 0; v < VOLUMES; v++)
        for (size_t lbn = 0; lbn < BLOCKS; lbn++)
            volumes[v][lbn] = below(VOCABULARY);
}

static void change(uint64_t *volume)
{
    uint8_t done[BLOCKS] = {0};

    for (size_t i = 0; i < CHANGED; i++) {
        size_t lbn;

        do
            lbn = below(BLOCKS);
        while (done[lbn]);
        done[lbn] = 1;
        volume[lbn] = i % 2 == 0 ? other_word(volume[lbn]) : next_new++;
    }
}

static void write_block(FILE *file, uint64_t number)
{
    uint8_t block[BLOCK_SIZE];

    for (size_t i = 0; i < BLOCK_SIZE; i += 8) {
        uint64_t word = mixed(number * BLOCK_SIZE + i);

        for (size_t k = 0; k < 8; k++)
            block[i + k] = (uint8_t)(word >> 8 * k);
    }
    fwrite(block, 1, BLOCK_SIZE, file);
}

static int write_volume(const char *folder, size_t v)
{
    char path[4096];
    FILE *file;
    int bad;

    snprintf(path, sizeof path, "%s/volume-%zu.img", folder, v);
    file = fopen(path, "wb");
    for (size_t lbn = 0; file != NULL && lbn < BLOCKS; lbn++)
        write_block(file, volumes[v][lbn]);
    bad = file == NULL || ferror(file);
    if (file != NULL && fclose(file) != 0)
        bad = 1;
    if (bad)
        fprintf(stderr, "images: can't write %s: %s\n", path, strerror(errno));
    return bad;
}

int main(int count, char **arguments)
{
    char *end = NULL;
    long day = count == 3 ? strtol(arguments[1], &end, 10) : -1;
    int bad = 0;

    if (day < 0 || day > LAST_DAY || end == arguments[1] || *end != '\0') {
        fprintf(stderr, "usage: images DAY FOLDER, with DAY from 0 to %d\n", LAST_DAY);
        return 2;
    }
    first_day();
    for (long d = 0; d < day; d++)
        for (size_t v = 0; v < VOLUMES; v++)
            change(volumes[v]);
    for (size_t v = 0; v < VOLUMES; v++)
        bad |= write_volume(arguments[2], v);
    return bad;
}
