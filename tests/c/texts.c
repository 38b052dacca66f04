/* What the header has beside sizes and calls: texts, numbers of two bytes, layouts, the version. */
#include <aspen.h>

#include "books.h"
#include "check.h"
#include "tests.h"

#include <stdio.h>
#include <string.h>

static const char other[] = "no number of the box";

static void check_text(uint16_t number, const char *expected)
{
    const char *text = aspen_text(number);

    CHECK_EQ(strlen(text), strlen(expected));
    CHECK_EQ(strcmp(text, expected), 0);
}

/* Each number has a text of its own, and a short one. */
static void test_numbers(void)
{
    uint16_t number, before;

    check_about("texts");
    for (number = ASPEN_OK; number <= ASPEN_COUNT_WIDE; number++) {
        size_t length = strlen(aspen_text(number));

        CHECK_EQ(length > 5 && length < 90, 1);
        CHECK_EQ(strcmp(aspen_text(number), other) != 0, 1);
        for (before = ASPEN_OK; before < number; before++)
            CHECK_EQ(strcmp(aspen_text(number), aspen_text(before)) != 0, 1);
    }
    check_text(ASPEN_OK, "accepted");
    check_text(ASPEN_BAD_POOL, "the pool has the wrong length");
    check_text(ASPEN_SHORT_SPARE, "the spare is shorter than the book, "
                                  "or a converter's output than the book to write");
    check_text(ASPEN_NO_BLOCK, "no block of the pool is free");
    check_text(ASPEN_COUNT_FULL, "the block's count is 65,535 already: the book is damaged");
    check_text(ASPEN_UNMAPPED, "the backup has no block at this LBN");
    check_text(ASPEN_SHORT_OUTPUT, "the output is too short");
    check_text(ASPEN_BAD_RUN, "the run ends after the volume, or the output is too short");
    check_text(ASPEN_COUNT_WIDE, "a count is above 255, for which layout 1 has no room");
    check_text(ASPEN_COUNT_WIDE + 1, other);
    check_text(256, other);
    check_text(65535, other);
}

static void test_u16(void)
{
    static const uint8_t bytes[] = { 0, 1, 2, 255, 255, 0 };

    check_about("numbers of two bytes");
    CHECK_EQ(aspen_u16(bytes), 256);
    CHECK_EQ(aspen_u16(bytes + 1), 513);
    CHECK_EQ(aspen_u16(bytes + 3), 65535);
    CHECK_EQ(aspen_u16(bytes + 4), 255);
}

/* What the first bytes of a book say; the rest isn't looked at. */
static void test_layouts(void)
{
    uint8_t book[CASE_BOOK], narrow[CASE_NARROW];
    static const uint8_t last[] = { 255, 255, 255, 255, 255, 255, 255, 255, 255, 255 };

    check_about("layouts");
    book_after_d(book);
    book_narrow(narrow, book, sizeof book);
    CHECK_EQ(aspen_layout(book, sizeof book), ASPEN_LAYOUT);
    CHECK_EQ(aspen_layout(narrow, sizeof narrow), 1);
    CHECK_EQ(aspen_layout(book, 2), 3);
    CHECK_EQ(aspen_layout(book, 1), 0);
    CHECK_EQ(aspen_layout(book, 0), 0);
    CHECK_EQ(aspen_layout(last, sizeof last), 65535);
    CHECK_EQ(aspen_converted_size(1, book, sizeof book), CASE_NARROW);
    CHECK_EQ(aspen_converted_size(2, book, sizeof book), CASE_BOOK);
    CHECK_EQ(aspen_converted_size(3, book, sizeof book), CASE_BOOK);
    CHECK_EQ(aspen_converted_size(3, narrow, sizeof narrow), CASE_BOOK);
    CHECK_EQ(aspen_converted_size(2, narrow, sizeof narrow), CASE_BOOK);
    CHECK_EQ(aspen_converted_size(2, narrow, 10), CASE_BOOK);
    CHECK_EQ(aspen_converted_size(2, narrow, 9), 0);
    CHECK_EQ(aspen_converted_size(1, narrow, 0), 0);
    CHECK_EQ(aspen_converted_size(2, last, sizeof last), 36 + (21 + 16 + 8 + 6) * 65535);
    CHECK_EQ(aspen_converted_size(1, last, sizeof last), 36 + (20 + 16 + 8 + 6) * 65535);
}

static void test_version(void)
{
    char text[40];

    check_about("version");
    sprintf(text, "%d.%d.%d", ASPEN_VERSION_MAJOR, ASPEN_VERSION_MINOR, ASPEN_VERSION_PATCH);
    CHECK_EQ(strcmp(text, ASPEN_VERSION), 0);
}

void test_texts(void)
{
    test_numbers();
    test_u16();
    test_layouts();
    test_version();
}
