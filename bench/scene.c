#include "scene.h"

#include <stdio.h>
#include <stdlib.h>
#include <string.h>

/* The list of a backup, or the one that write_list writes. */
static uint8_t list[aspen_list_bound(CELLS)];

/* The volume that write_list is given. */
static uint8_t marks[CELLS], prints[ASPEN_PRINT_SIZE * CELLS], image[ASPEN_BLOCK_SIZE * CELLS];

/* The box's book in layouts 2 and 1, for the converters that take it, and how long that is in layout 1. */
static uint8_t wide[aspen_book_size_of(2, ASPEN_MAX_BLOCKS, CELLS, SLOTS, RECORDS)];
static uint8_t narrow[aspen_book_size_of(1, ASPEN_MAX_BLOCKS, CELLS, SLOTS, RECORDS)];

static size_t narrow_len(const struct stage *stage)
{
    return aspen_book_size_of(1, stage->box.blocks, CELLS, SLOTS, RECORDS);
}

bool same_scene(const struct scene *a, const struct scene *b)
{
    return a->call == b->call && same_alike(a->alike, b->alike) && a->fresh == b->fresh && a->left == b->left && a->finds == b->finds
           && a->oldest == b->oldest && a->blocks == b->blocks && a->records == b->records && a->changes == b->changes;
}

static void set_list(struct stage *stage)
{
    const struct scene *scene = &stage->scene;
    uint16_t numbers[CELLS];
    unsigned from = scene->finds == LAST_BLOCKS ? stage->held - scene->changes % stage->held : 0;
    for (unsigned i = 0; i < scene->changes; i++)
        numbers[i] = (uint16_t)(scene->finds == NOWHERE ? stage->held + i : (from + i) % stage->held);
    stage->list_len = change_list(list, scene->alike, 0, scene->changes, numbers);
}

static uint16_t write_list(const struct side *side, uint8_t *to, uint32_t *written)
{
    return side->write_list(CELLS, marks, sizeof marks, prints, sizeof prints, image, sizeof image, to, sizeof list, written);
}

/* Steps of 37 LBNs round the volume come to each once. */
static void set_volume(struct stage *stage)
{
    uint32_t written = 0;
    memset(marks, 0, sizeof marks);
    for (unsigned i = 0; i < stage->scene.changes; i++)
        marks[37 * i % CELLS] = 1;
    for (unsigned i = 0; i < CELLS; i++)
        put_print(prints + ASPEN_PRINT_SIZE * i, stage->scene.alike, i);
    scatter(image, sizeof image, CELLS);
    write_list(&sides[PROVED], list, &written);
    stage->list_len = written;
}

static bool converts(const struct scene *scene)
{
    return scene->call == CONVERT_1_2 || scene->call == CONVERT_2_1 || scene->call == CONVERT_2_3;
}

/* Layout 2 has the bytes of today's but for the number where no volume is retired; expiries that are those of today don't matter to a converter. */
static void set_older(const struct stage *stage)
{
    memcpy(wide, stage->box.book, stage->box.book_len);
    wide[0] = 2;
    aspen_convert_2_1(wide, stage->box.book_len, narrow, narrow_len(stage));
}

void stage_set(struct stage *stage, const struct scene *scene)
{
    *stage = (struct stage){ .scene = *scene };
    stage->held = scene->finds == NOWHERE ? scene->blocks - scene->blocks / 4 : scene->blocks;
    struct past past = { .alike = scene->alike,
                         .used = !scene->fresh,
                         .left = scene->left,
                         .blocks = scene->blocks,
                         .held = stage->held,
                         .records = scene->records,
                         .cells = scene->call == RETIRE ? scene->changes : CELLS };
    box_make(&stage->box, &past);
    if (scene->call == WRITE_LIST)
        set_volume(stage);
    else if (scene->call == BACKUP)
        set_list(stage);
    else if (converts(scene))
        set_older(stage);
    stage->volume = scene->call == ENROL ? AIDS : scene->call == RETIRE ? AIDS - 1 : 0;
    stage->day = (uint16_t)(stage->box.day + (scene->call == COLLECT ? RETENTION + 1 : 1));
    stage->number = scene->oldest ? 1 : stage->box.newest;
}

void stage_restore(struct stage *stage)
{
    bool takes = stage->scene.call == BACKUP && stage->scene.finds == NOWHERE;
    box_restore(&stage->box, takes ? stage->held : stage->box.blocks);
}

uint16_t stage_call(struct stage *stage, const struct side *side)
{
    struct box *box = &stage->box;
    uint16_t *answers = stage->answers;
    switch (stage->scene.call) {
    case FORM:
        return side->form(box->book, box->book_len);
    case FORMAT:
        return side->format(box->book, box->book_len, (uint16_t)box->blocks, CELLS, SLOTS, RECORDS);
    case ENROL:
        return side->enrol(box->book, box->book_len, stage->volume, RETENTION);
    case BACKUP:
        return side->backup(box->book, box->book_len, box->pool, box->pool_len, box->spare, box->book_len, stage->volume, stage->day, list,
                            stage->list_len, &answers[0], &answers[1], &answers[2]);
    case RETIRE:
        return side->retire(box->book, box->book_len, box->spare, box->book_len, stage->volume, stage->day, &answers[0]);
    case COLLECT:
        return side->collect(box->book, box->book_len, stage->day, &answers[0]);
    case READ:
        return side->read(box->book, box->book_len, box->pool, box->pool_len, stage->volume, stage->number, stage->lbn, &stage->at);
    case RESTORE:
        return side->restore(box->book, box->book_len, box->pool, box->pool_len, stage->volume, stage->number, stage->lbn,
                             (uint16_t)stage->scene.changes, box->room, aspen_run_size(stage->scene.changes));
    case AUDIT:
        return side->audit(box->book, box->book_len, &answers[0]);
    case CONVERT_1_2:
        return side->convert_1_2(narrow, narrow_len(stage), box->room, box->book_len);
    case CONVERT_2_1:
        return side->convert_2_1(wide, box->book_len, box->room, narrow_len(stage));
    case CONVERT_2_3:
        return side->convert_2_3(wide, box->book_len, box->room, box->book_len);
    case WRITE_LIST:
        return write_list(side, box->room, &stage->at);
    }
    return 0;
}

void stage_move(struct stage *stage)
{
    const struct scene *scene = &stage->scene;
    struct box *box = &stage->box;
    if (scene->call == WRITE_LIST) {
        memcpy(box->room, list, stage->list_len);
        return;
    }
    memcpy(box->spare, box->book, box->book_len);
    if (scene->call == RESTORE)
        memcpy(box->room, box->pool, aspen_run_size(scene->changes));
    if (converts(scene))
        memcpy(box->room, box->spare, scene->call == CONVERT_2_3 ? box->book_len : narrow_len(stage));
    if (scene->call == BACKUP || scene->call == RETIRE)
        memcpy(box->book, box->spare, box->book_len);
    if (scene->call != BACKUP)
        return;
    uint8_t *to = scene->finds == NOWHERE ? box->pool + aspen_pool_size(stage->held) : box->room;
    memcpy(to, list + aspen_list_size(runs_of(scene->changes), 0) + ASPEN_PRINT_SIZE * scene->changes, aspen_pool_size(scene->changes));
}

static void fail(const struct stage *stage, const char *what, const struct side *side)
{
    static const char *const names[] = { "form", "format",  "enrol", "backup",      "retire",      "collect",
                                         "read", "restore", "audit", "convert_1_2", "convert_2_1", "convert_2_3",
                                         "write_list" };
    const struct scene *scene = &stage->scene;
    fprintf(stderr, "\nbench: %s with N = %u, U = %u, n = %u: %s %s\n", names[scene->call], scene->blocks, scene->records, scene->changes,
            side->name, what);
    exit(1);
}

static void call_accepted(struct stage *stage, const struct side *side)
{
    memset(stage->answers, 0, sizeof stage->answers);
    stage->at = 0;
    memset(stage->box.room, 0, sizeof list);
    stage_restore(stage);
    if (stage_call(stage, side) != 0)
        fail(stage, "refuses what it should accept", side);
}

void stage_compare(struct stage *stage)
{
    static uint8_t book[aspen_book_size(ASPEN_MAX_BLOCKS, CELLS, SLOTS, RECORDS)], pool[aspen_pool_size(ASPEN_MAX_BLOCKS)], written[sizeof list];
    struct box *box = &stage->box;
    call_accepted(stage, &sides[PROVED]);
    struct stage proved = *stage;
    memcpy(book, box->book, box->book_len);
    memcpy(pool, box->pool, box->pool_len);
    memcpy(written, box->room, sizeof written);
    for (int s = PROVED + 1; s < SIDES; s++) {
        call_accepted(stage, &sides[s]);
        if (memcmp(proved.answers, stage->answers, sizeof stage->answers) != 0 || proved.at != stage->at)
            fail(stage, "answers otherwise than the proved call", &sides[s]);
        if (memcmp(book, box->book, box->book_len) != 0)
            fail(stage, "leaves another book than the proved call", &sides[s]);
        if (memcmp(pool, box->pool, box->pool_len) != 0)
            fail(stage, "leaves another pool than the proved call", &sides[s]);
        if (memcmp(written, box->room, sizeof written) != 0)
            fail(stage, "writes other bytes than the proved call", &sides[s]);
    }
    stage_restore(stage);
}
