/* Books as bytes, written by hand from the layout, and where their fields are. */
#ifndef ASPEN_TESTS_BOOKS_H
#define ASPEN_TESTS_BOOKS_H

#include <stddef.h>
#include <stdint.h>

/* The sizes of the cases, and the length of their book; and that of layout 1. */
enum { CASE_N = 4, CASE_L = 4, CASE_S = 6, CASE_J = 8, CASE_BOOK = 280, CASE_NARROW = 276 };

/* Header fields. */
enum {
    AT_LAYOUT = 0,
    AT_N = 2,
    AT_L = 4,
    AT_S = 6,
    AT_J = 8,
    AT_SLOTS_USED = 10,
    AT_RECORDS_USED = 12,
    AT_DAY = 14,
    AT_CURSOR = 16,
    AT_ZERO = 18,
    AT_RETENTIONS = 20
};

/* Fields of an entry and of a slot. */
enum { ENTRY_COUNT = 0, ENTRY_STATE = 2, ENTRY_EXPIRY = 3, ENTRY_PRINT = 5 };
enum { SLOT_VOLUME = 0, SLOT_KIND = 1, SLOT_DAY = 2, SLOT_FIRST = 4, SLOT_NUMBER = 6 };
enum { RECORD_LBN = 0, RECORD_BEFORE = 2, RECORD_AFTER = 4 };

enum { PBN_UNMAPPED = 65535 };

/* Where parts of a book of the cases' sizes start; entries start there in every book. */
size_t case_entry(unsigned pbn);
size_t case_cell(unsigned volume, unsigned lbn);
size_t case_slot(unsigned slot);
size_t case_record(unsigned record);
/* Where a slot and a record start in a book of any sizes. */
size_t slot_in(const uint8_t *book, unsigned slot);
size_t record_in(const uint8_t *book, unsigned record);

unsigned get_u16(const uint8_t *bytes, size_t at);
void put_u16(uint8_t *bytes, size_t at, unsigned value);

/* A fresh book of these sizes. */
void book_fresh(uint8_t *book, unsigned n, unsigned l, unsigned s, unsigned j);
/* The book of the cases after case d; and as the same calls left it in layout 2. */
void book_after_d(uint8_t *book);
void book_after_d_in_2(uint8_t *book);
/* The fields of a book in layout 1; of a count it has the low byte. */
void book_narrow(uint8_t *narrow, const uint8_t *book, size_t length);

#endif
