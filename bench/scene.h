/* What is measured: one call on one box. */
#ifndef ASPEN_BENCH_SCENE_H
#define ASPEN_BENCH_SCENE_H

#include "box.h"
#include "sides.h"

enum call { FORM, FORMAT, ENROL, BACKUP, RETIRE, COLLECT, READ, RESTORE, AUDIT, CONVERT_1_2, CONVERT_2_1, CONVERT_2_3, WRITE_LIST };

/* Where a backup's blocks are found: round the held ones, from the first or up to the last. For one that finds nothing a quarter of the pool is
 * free. */
enum finds { FIRST_BLOCKS, LAST_BLOCKS, NOWHERE };

struct scene {
    enum call call;
    struct alike alike;
    bool fresh;
    bool left;
    enum finds finds;
    bool oldest; /* read and restore: the volume's first backup, else its newest */
    unsigned blocks, records;
    unsigned changes; /* of a backup; retire: how many cells are mapped; restore: how many blocks; write_list: how many LBNs are marked, here and
                       * there until all are */
};

bool same_scene(const struct scene *a, const struct scene *b);

/* A box, the arguments of the call, and what the call wrote and answered. */
struct stage {
    struct scene scene;
    struct box box;
    unsigned held;
    uint16_t volume, day, number, lbn;
    size_t list_len;
    uint16_t answers[3];
    uint32_t at; /* read's answer, or how many bytes write_list wrote */
};

void stage_set(struct stage *stage, const struct scene *scene);

/* Book and pool as before the call. */
void stage_restore(struct stage *stage);

/* Answers 0 or the number of the refusal. */
uint16_t stage_call(struct stage *stage, const struct side *side);

/* memcpy of what the call has to move: a backup the book into the spare and back, and its blocks; retire the same without blocks; restore the
 * book and its blocks; a converter the book and the one that it writes; write_list as many bytes as its list has; every other call, which goes
 * through the whole book, that book. */
void stage_move(struct stage *stage);

/* Calls each side once and compares answers, book, pool and the list or the blocks that were written. A refusal or a difference ends the program
 * with a message. */
void stage_compare(struct stage *stage);

#endif
