#include "plan.h"

/* A journal that is full, and one with room for the largest backup. */
#define FULL .blocks = ASPEN_MAX_BLOCKS, .records = RECORDS
#define ROOM .blocks = ASPEN_MAX_BLOCKS, .records = RECORDS - CELLS

#define BACKUP_OF(n, where) .call = BACKUP, .finds = where, .changes = n, ROOM
#define RETIRE_OF(n) .call = RETIRE, .changes = n, ROOM
#define WRITE_OF(n) .call = WRITE_LIST, .fresh = true, .changes = n, FULL
#define RESTORE_OF(n) .call = RESTORE, .oldest = true, .changes = n, FULL
#define LEFT .left = true, .blocks = ASPEN_MAX_BLOCKS, .records = 2 * FIRST_RECORDS

/* Fingerprints that differ in their last two bytes only, and in their first two only. */
#define FIRST_14 .alike = { 14, 0 }
#define LAST_14 .alike = { 0, 14 }

/* As many blocks as there are fingerprints alike in 15 bytes. */
#define SMALL_BACKUP_OF(n, where) .call = BACKUP, .finds = where, .changes = n, .blocks = 256, .records = RECORDS - CELLS

const struct row rows[ROWS] = {
    { "form, fresh book", { .call = FORM, .fresh = true, FULL } },
    { "form, a quarter of the blocks free", { .call = FORM, .finds = NOWHERE, FULL } },
    { "form, all blocks held", { .call = FORM, FULL } },
    { "format", { .call = FORMAT, FULL } },
    { "enrol", { .call = ENROL, FULL } },
    { "backup, no changes", { BACKUP_OF(0, LAST_BLOCKS) } },
    { "backup, 1 change, hits first", { BACKUP_OF(1, FIRST_BLOCKS) } },
    { "backup, 64 changes, hits first", { BACKUP_OF(64, FIRST_BLOCKS) } },
    { "backup, 1,024 changes, hits first", { BACKUP_OF(1024, FIRST_BLOCKS) } },
    { "backup, 1 change, hits last", { BACKUP_OF(1, LAST_BLOCKS) } },
    { "backup, 64 changes, hits last", { BACKUP_OF(64, LAST_BLOCKS) } },
    { "backup, 1,024 changes, hits last", { BACKUP_OF(1024, LAST_BLOCKS) } },
    { "backup, 1 change, misses", { BACKUP_OF(1, NOWHERE) } },
    { "backup, 64 changes, misses", { BACKUP_OF(64, NOWHERE) } },
    { "backup, 1,024 changes, misses", { BACKUP_OF(1024, NOWHERE) } },
    { "backup, 1 change, alike, hits last", { BACKUP_OF(1, LAST_BLOCKS), FIRST_14 } },
    { "backup, 64 changes, alike, hits last", { BACKUP_OF(64, LAST_BLOCKS), FIRST_14 } },
    { "backup, 1,024 changes, alike, hits last", { BACKUP_OF(1024, LAST_BLOCKS), FIRST_14 } },
    { "backup, 1 change, alike, misses", { BACKUP_OF(1, NOWHERE), FIRST_14 } },
    { "backup, 64 changes, alike, misses", { BACKUP_OF(64, NOWHERE), FIRST_14 } },
    { "backup, 1,024 changes, alike, misses", { BACKUP_OF(1024, NOWHERE), FIRST_14 } },
    { "backup, 1,024 changes, alike ends, hits last", { BACKUP_OF(1024, LAST_BLOCKS), LAST_14 } },
    { "retire, 1 cell mapped", { RETIRE_OF(1) } },
    { "retire, 64 cells mapped", { RETIRE_OF(64) } },
    { "retire, 1,024 cells mapped", { RETIRE_OF(1024) } },
    { "collect, nothing to free", { .call = COLLECT, FULL } },
    { "collect, 4,032 blocks to free", { .call = COLLECT, LEFT } },
    { "read, newest backup", { .call = READ, FULL } },
    { "read, oldest backup", { .call = READ, .oldest = true, FULL } },
    { "restore, 1 block, oldest backup", { RESTORE_OF(1) } },
    { "restore, 64 blocks, oldest backup", { RESTORE_OF(64) } },
    { "restore, 1,024 blocks, oldest backup", { RESTORE_OF(1024) } },
    { "audit", { .call = AUDIT, FULL } },
    { "audit, alike", { .call = AUDIT, FIRST_14, FULL } },
    { "convert_1_2", { .call = CONVERT_1_2, FULL } },
    { "convert_2_1", { .call = CONVERT_2_1, FULL } },
    { "convert_2_3", { .call = CONVERT_2_3, FULL } },
    { "write_list, all of 1,024 blocks marked", { WRITE_OF(1024) } },
    { "write_list, 51 of 1,024 marked here and there", { WRITE_OF(51) } },
};

const struct row lookups[LOOKUPS] = {
    { "hits first", { BACKUP_OF(1024, FIRST_BLOCKS) } },
    { "hits last", { BACKUP_OF(1024, LAST_BLOCKS) } },
    { "misses", { BACKUP_OF(1024, NOWHERE) } },
    { "alike, hits last", { BACKUP_OF(1024, LAST_BLOCKS), FIRST_14 } },
    { "alike, misses", { BACKUP_OF(1024, NOWHERE), FIRST_14 } },
    { "alike ends, hits last", { BACKUP_OF(1024, LAST_BLOCKS), LAST_14 } },
};

/* The last six have the same two bytes at both ends, by which the library's index goes: all fingerprints are in one of its buckets. Compared from
 * the far end, {2, 2} differ after two bytes mostly, {2, 12} after twelve or thirteen. */
const struct row alikes[ALIKES] = {
    { "hits last, at random", { BACKUP_OF(1024, LAST_BLOCKS) } },
    { "hits last, first 4 alike", { BACKUP_OF(1024, LAST_BLOCKS), .alike = { 4, 0 } } },
    { "hits last, first 8 alike", { BACKUP_OF(1024, LAST_BLOCKS), .alike = { 8, 0 } } },
    { "hits last, first 12 alike", { BACKUP_OF(1024, LAST_BLOCKS), .alike = { 12, 0 } } },
    { "hits last, first 14 alike", { BACKUP_OF(1024, LAST_BLOCKS), FIRST_14 } },
    { "hits last, last 4 alike", { BACKUP_OF(1024, LAST_BLOCKS), .alike = { 0, 4 } } },
    { "hits last, last 8 alike", { BACKUP_OF(1024, LAST_BLOCKS), .alike = { 0, 8 } } },
    { "hits last, last 12 alike", { BACKUP_OF(1024, LAST_BLOCKS), .alike = { 0, 12 } } },
    { "hits last, last 14 alike", { BACKUP_OF(1024, LAST_BLOCKS), LAST_14 } },
    { "misses, at random", { BACKUP_OF(1024, NOWHERE) } },
    { "misses, first 4 alike", { BACKUP_OF(1024, NOWHERE), .alike = { 4, 0 } } },
    { "misses, first 8 alike", { BACKUP_OF(1024, NOWHERE), .alike = { 8, 0 } } },
    { "misses, first 12 alike", { BACKUP_OF(1024, NOWHERE), .alike = { 12, 0 } } },
    { "misses, first 14 alike", { BACKUP_OF(1024, NOWHERE), FIRST_14 } },
    { "misses, last 4 alike", { BACKUP_OF(1024, NOWHERE), .alike = { 0, 4 } } },
    { "misses, last 8 alike", { BACKUP_OF(1024, NOWHERE), .alike = { 0, 8 } } },
    { "misses, last 12 alike", { BACKUP_OF(1024, NOWHERE), .alike = { 0, 12 } } },
    { "misses, last 14 alike", { BACKUP_OF(1024, NOWHERE), LAST_14 } },
    { "256 blocks, hits, at random", { SMALL_BACKUP_OF(1024, LAST_BLOCKS) } },
    { "256 blocks, hits, first 15 alike", { SMALL_BACKUP_OF(1024, LAST_BLOCKS), .alike = { 15, 0 } } },
    { "256 blocks, hits, last 15 alike", { SMALL_BACKUP_OF(1024, LAST_BLOCKS), .alike = { 0, 15 } } },
    { "256 blocks, 64 misses, at random", { SMALL_BACKUP_OF(64, NOWHERE) } },
    { "256 blocks, 64 misses, first 15 alike", { SMALL_BACKUP_OF(64, NOWHERE), .alike = { 15, 0 } } },
    { "256 blocks, 64 misses, last 15 alike", { SMALL_BACKUP_OF(64, NOWHERE), .alike = { 0, 15 } } },
    { "one bucket, hits last, first 2 and last 2 alike", { BACKUP_OF(1024, LAST_BLOCKS), .alike = { 2, 2 } } },
    { "one bucket, hits last, first 2 and last 12 alike", { BACKUP_OF(1024, LAST_BLOCKS), .alike = { 2, 12 } } },
    { "one bucket, misses, first 2 and last 2 alike", { BACKUP_OF(1024, NOWHERE), .alike = { 2, 2 } } },
    { "one bucket, misses, first 2 and last 12 alike", { BACKUP_OF(1024, NOWHERE), .alike = { 2, 12 } } },
    { "one bucket, audit, first 2 and last 2 alike", { .call = AUDIT, .alike = { 2, 2 }, FULL } },
    { "one bucket, audit, first 2 and last 12 alike", { .call = AUDIT, .alike = { 2, 12 }, FULL } },
};

const struct growth growths[GROWTHS] = {
    { "backup, hits first", CHANGES, { BACKUP_OF(0, FIRST_BLOCKS) } },
    { "backup, hits last", CHANGES, { BACKUP_OF(0, LAST_BLOCKS) } },
    { "backup, misses", CHANGES, { BACKUP_OF(0, NOWHERE) } },
    { "backup, alike, hits last", CHANGES, { BACKUP_OF(0, LAST_BLOCKS), FIRST_14 } },
    { "backup, alike, misses", CHANGES, { BACKUP_OF(0, NOWHERE), FIRST_14 } },
    { "backup, 64 changes, hits last", BLOCKS, { BACKUP_OF(64, LAST_BLOCKS) } },
    { "backup, 64 changes, hits last", RECORDS_USED, { BACKUP_OF(64, LAST_BLOCKS) } },
    { "collect, all but 64 blocks to free", BLOCKS, { .call = COLLECT, LEFT } },
    { "collect, nothing to free", BLOCKS, { .call = COLLECT, FULL } },
    { "collect, nothing to free", RECORDS_USED, { .call = COLLECT, FULL } },
    { "read, newest backup", BLOCKS, { .call = READ, FULL } },
    { "read, newest backup", RECORDS_USED, { .call = READ, FULL } },
    { "read, oldest backup", BLOCKS, { .call = READ, .oldest = true, FULL } },
    { "read, oldest backup", RECORDS_USED, { .call = READ, .oldest = true, FULL } },
    { "audit", BLOCKS, { .call = AUDIT, FULL } },
    { "audit", RECORDS_USED, { .call = AUDIT, FULL } },
    { "audit, alike", BLOCKS, { .call = AUDIT, FIRST_14, FULL } },
    { "form", BLOCKS, { .call = FORM, FULL } },
    { "form", RECORDS_USED, { .call = FORM, FULL } },
};

bool is_salted(const struct scene *scene)
{
    const struct alike *alike = &scene->alike;
    return (alike->first == 0) != (alike->last == 0) && alike->first <= 14 && alike->last <= 14;
}

struct scene at_random(struct scene scene)
{
    scene.alike = (struct alike){ 0, 0 };
    return scene;
}

/* The last point is that of the table of speeds. */
unsigned growth_at(const struct growth *growth, int point)
{
    static const unsigned changes[GROWTH_POINTS] = { 0, 64, 256, 512, 1024 };
    static const unsigned blocks[GROWTH_POINTS] = { 512, 1024, 2048, 3072, 4096 };
    static const unsigned sooner[GROWTH_POINTS] = { 8192, 6144, 4096, 2048, 0 };
    switch (growth->with) {
    case CHANGES:
        return changes[point];
    case BLOCKS:
        return blocks[point];
    default:
        return growth->scene.records - sooner[point];
    }
}

struct scene growth_scene(const struct growth *growth, int point)
{
    struct scene scene = growth->scene;
    unsigned at = growth_at(growth, point);
    if (growth->with == CHANGES)
        scene.changes = at;
    else if (growth->with == BLOCKS)
        scene.blocks = at;
    else
        scene.records = at;
    return scene;
}
