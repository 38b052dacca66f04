/* aspen_write_list: longest runs are cut into pieces of ASPEN_MAX_RUN blocks. */
#include <aspen.h>

#include "books.h"
#include "check.h"
#include "tests.h"
#include "writing.h"

#include <string.h>

/* Marks of l blocks in up to two rows, each from its first to before its end. */
static void mark_rows(char *marks, unsigned l, const unsigned rows[4])
{
    memset(marks, '0', l);
    memset(marks + rows[0], '1', rows[1] - rows[0]);
    memset(marks + rows[2], '1', rows[3] - rows[2]);
    marks[l] = 0;
}

/* Rows of marked blocks, and how the list of them starts: the number of runs and their pairs. */
static const struct pieces {
    unsigned l, rows[4], runs, head[17];
} pieces[] = {
    { 64, { 0, 63, 0, 0 }, 1, { 1, 0, 63 } },
    { 64, { 0, 64, 0, 0 }, 1, { 1, 0, 64 } },
    { 66, { 1, 65, 0, 0 }, 1, { 1, 1, 64 } },
    { 65, { 0, 65, 0, 0 }, 2, { 2, 0, 64, 64, 1 } },
    { 100, { 35, 100, 0, 0 }, 2, { 2, 35, 64, 99, 1 } },
    { 70, { 0, 66, 0, 0 }, 2, { 2, 0, 64, 64, 2 } },
    { 128, { 0, 128, 0, 0 }, 2, { 2, 0, 64, 64, 64 } },
    { 200, { 7, 135, 0, 0 }, 2, { 2, 7, 64, 71, 64 } },
    { 130, { 0, 129, 0, 0 }, 3, { 3, 0, 64, 64, 64, 128, 1 } },
    { 130, { 0, 64, 65, 129 }, 2, { 2, 0, 64, 65, 64 } },
    { 500, { 10, 210, 211, 411 }, 8,
      { 8, 10, 64, 74, 64, 138, 64, 202, 8, 211, 64, 275, 64, 339, 64, 403, 8 } },
};

/* A longest run is cut into pieces of 64 from its start, the rest last. */
static void test_pairs(void)
{
    char marks[ASPEN_MAX_LBNS + 1];
    size_t i, k;

    for (i = 0; i < sizeof pieces / sizeof pieces[0]; i++) {
        const struct pieces *p = &pieces[i];
        size_t changes = p->rows[1] - p->rows[0] + p->rows[3] - p->rows[2];
        struct writing call;

        mark_rows(marks, p->l, p->rows);
        check_marks(marks, p->runs, changes);
        call = writing_new((uint16_t)p->l, marks, aspen_list_bound(p->l));
        CHECK_EQ(write_list(&call, ASPEN_OK), aspen_list_size(p->runs, changes));
        for (k = 0; k <= 2 * p->runs; k++)
            CHECK_EQ(get_u16(call.list.bytes, 2 * k), p->head[k]);
        writing_free(&call);
    }
}

/* All of l blocks marked fill the bound, and a byte less is too short; so is room for one pair. */
static void test_bound(void)
{
    static const uint16_t ls[] = { 1, 63, 64, 65, 128, 129, ASPEN_MAX_LBNS };
    char marks[ASPEN_MAX_LBNS];
    size_t i;

    check_about("the longest list");
    memset(marks, '1', sizeof marks);
    for (i = 0; i < sizeof ls / sizeof ls[0]; i++) {
        struct writing call = writing_new(ls[i], marks, aspen_list_bound(ls[i]));
        struct writing shorter = writing_new(ls[i], marks, aspen_list_bound(ls[i]) - 1);
        struct writing one_pair = writing_new(ls[i], marks, aspen_list_size(1, ls[i]));

        CHECK_EQ(write_list(&call, ASPEN_OK), aspen_list_bound(ls[i]));
        write_list(&shorter, ASPEN_SHORT_OUTPUT);
        write_list(&one_pair, ls[i] <= ASPEN_MAX_RUN ? ASPEN_OK : ASPEN_SHORT_OUTPUT);
        writing_free(&call);
        writing_free(&shorter);
        writing_free(&one_pair);
    }
}

/* The list is backed up, and the box reads the marked blocks back: 100 blocks, which come again and
 * again from LBN 10 on. */
static void test_round_trip(void)
{
    static const unsigned rows[4] = { 10, 210, 211, 411 };
    char marks[501];
    struct box box = box_for(100, 500);
    struct writing call;
    uint16_t lbn;

    check_about("a round trip in pieces");
    mark_rows(marks, 500, rows);
    call = writing_new(500, marks, aspen_list_size(8, 400));
    CHECK_EQ(write_list(&call, ASPEN_OK), call.list.length);
    CHECK_EQ(call_backup(&box, 0, 1, buffer_copy(&call.list), ASPEN_OK).taken, 100);
    for (lbn = 0; lbn < 500; lbn++)
        if (marks[lbn] == '1')
            check_block(&box, &call, lbn, (lbn - 10u) % 100);
        else
            call_read(&box, 0, 1, lbn, ASPEN_UNMAPPED);
    box_free(&box);
    writing_free(&call);
}

void test_pieces(void)
{
    test_pairs();
    test_bound();
    test_round_trip();
}
