/* aspen_write_list: the list's bytes, its length, what a box makes of it, and refusals that write
 * nothing. */
#include <aspen.h>

#include "check.h"
#include "tests.h"
#include "writing.h"

#include <string.h>

/* A small list, byte by byte. */
static void test_small_list(void)
{
    static const uint8_t head[] = { 2, 0, 0, 0, 2, 0, 4, 0, 1, 0 };
    struct writing call = writing_new(5, "11001", aspen_list_size(2, 3));
    const uint8_t *prints = call.prints.bytes, *image = call.image.bytes;
    const uint8_t *list = call.list.bytes;

    check_about("a small list");
    CHECK_EQ(write_list(&call, ASPEN_OK), 1594);
    CHECK_BYTES(list, head, sizeof head);
    CHECK_BYTES(list + 10, prints, 32);
    CHECK_BYTES(list + 42, prints + 64, 16);
    CHECK_BYTES(list + 58, image, 1024);
    CHECK_BYTES(list + 1082, image + 2048, 512);
    writing_free(&call);
}

static void test_marks(void)
{
    char marks[ASPEN_MAX_LBNS + 1];
    size_t i;

    check_marks("0", 0, 0);
    check_marks("1", 1, 1);
    check_marks("00000", 0, 0);
    check_marks("0110", 1, 2);
    check_marks("1011", 2, 3);
    check_marks("10101", 3, 3);
    check_marks("11010011", 3, 5);
    marks[ASPEN_MAX_LBNS] = 0;
    memset(marks, '1', ASPEN_MAX_LBNS);
    check_marks(marks, ASPEN_MAX_LBNS / ASPEN_MAX_RUN, ASPEN_MAX_LBNS);
    for (i = 0; i < ASPEN_MAX_LBNS; i += 2)
        marks[i] = '0';
    check_marks(marks, ASPEN_MAX_LBNS / 2, ASPEN_MAX_LBNS / 2);
}

/* The list is backed up, and the box reads the marked blocks back. */
static void test_round_trip(void)
{
    struct writing call = writing_new(8, "11010011", aspen_list_size(3, 5));
    struct box box = box_for(8, 8);
    unsigned taken = 0;
    uint16_t lbn;

    check_about("a round trip");
    CHECK_EQ(write_list(&call, ASPEN_OK), 2654);
    CHECK_EQ(call_backup(&box, 0, 1, buffer_copy(&call.list), ASPEN_OK).taken, 5);
    for (lbn = 0; lbn < 8; lbn++)
        if (call.marks.bytes[lbn] == 1)
            check_block(&box, &call, lbn, taken++);
        else
            call_read(&box, 0, 1, lbn, ASPEN_UNMAPPED);
    box_free(&box);
    writing_free(&call);
}

/* Another length for one of the inputs. */
static void check_input_length(size_t which, size_t length)
{
    struct writing call = writing_new(4, "0110", aspen_list_bound(4));
    struct buffer *inputs[3];

    inputs[0] = &call.marks;
    inputs[1] = &call.prints;
    inputs[2] = &call.image;
    buffer_free(inputs[which]);
    *inputs[which] = buffer_filled(length, 0);
    write_list(&call, ASPEN_BAD_INPUT);
    writing_free(&call);
}

static void test_bad_lengths(void)
{
    static const size_t right[3] = { 4, 4 * ASPEN_PRINT_SIZE, 4 * ASPEN_BLOCK_SIZE };
    size_t which;

    check_about("an input of another length");
    for (which = 0; which < 3; which++) {
        check_input_length(which, 0);
        check_input_length(which, right[which] - 1);
        check_input_length(which, right[which] + 1);
        check_input_length(which, 2 * right[which]);
    }
}

static void check_bad_input(uint16_t l, const char *marks, uint16_t said, size_t list_len)
{
    struct writing call = writing_new(l, marks, list_len);

    call.l = said;
    write_list(&call, ASPEN_BAD_INPUT);
    writing_free(&call);
}

static void test_bad_input(void)
{
    char marks[ASPEN_MAX_LBNS + 2];

    check_about("an l that isn't the input's");
    check_bad_input(4, "0110", 3, aspen_list_bound(5));
    check_bad_input(4, "0110", 5, aspen_list_bound(5));
    check_about("an l out of range");
    check_bad_input(0, "", 0, aspen_list_bound(1));
    memset(marks, '0', sizeof marks);
    check_bad_input(ASPEN_MAX_LBNS + 1, marks, ASPEN_MAX_LBNS + 1, aspen_list_bound(1));
    check_about("a mark that isn't 0 or 1");
    check_bad_input(4, "2110", 4, aspen_list_bound(4));
    check_bad_input(4, "0112", 4, aspen_list_bound(4));
    check_bad_input(4, "01/0", 4, aspen_list_bound(4));
    check_about("bad input before short output");
    check_bad_input(4, "2110", 4, 0);
}

static void test_short_output(void)
{
    size_t length;

    check_about("a short output");
    for (length = 0; length < aspen_list_size(1, 2); length += 53) {
        struct writing call = writing_new(4, "0110", length);
        write_list(&call, ASPEN_SHORT_OUTPUT);
        writing_free(&call);
    }
    for (length = 0; length < 2; length++) {
        struct writing call = writing_new(4, "0000", length);
        write_list(&call, ASPEN_SHORT_OUTPUT);
        writing_free(&call);
    }
}

void test_writer(void)
{
    test_small_list();
    test_marks();
    test_round_trip();
    test_bad_lengths();
    test_bad_input();
    test_short_output();
}
