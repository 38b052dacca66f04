#include "box.h"

#include <stdio.h>
#include <stdlib.h>
#include <string.h>

enum { BOOK = aspen_book_size(ASPEN_MAX_BLOCKS, CELLS, SLOTS, RECORDS), POOL = aspen_pool_size(ASPEN_MAX_BLOCKS) };

enum { MOST_BOXES = 96 };

/* What stands in the bytes that are alike. */
enum { SALT = 0xA5 };

static uint8_t book[BOOK], pool[POOL], spare[BOOK];
static uint8_t list[aspen_list_bound(CELLS)], room[sizeof list];

static void put_u16(uint8_t *b, unsigned v)
{
    b[0] = (uint8_t)v;
    b[1] = (uint8_t)(v >> 8);
}

void scatter(uint8_t *b, size_t n, uint64_t seed)
{
    for (size_t i = 0; i < n; i += 8) {
        uint64_t z = seed += 0x9E3779B97F4A7C15u;
        z = (z ^ z >> 30) * 0xBF58476D1CE4E5B9u;
        z = (z ^ z >> 27) * 0x94D049BB133111EBu;
        z ^= z >> 31;
        memcpy(b + i, &z, 8);
    }
}

bool same_alike(struct alike a, struct alike b)
{
    return a.first == b.first && a.last == b.last;
}

/* Each step can be undone, so different numbers of two bytes stay different. No multiple of the golden ratio: the library's index multiplies by
 * that, and would spread such numbers better than a hash does. */
static unsigned mixed(unsigned number)
{
    unsigned x = number & 0xFFFF;
    x ^= x >> 7;
    x = x * 0x2C1B & 0xFFFF;
    x ^= x >> 9;
    x = x * 0xD1A5 & 0xFFFF;
    return x ^ x >> 8;
}

void put_print(uint8_t *print, struct alike alike, unsigned number)
{
    uint8_t *differs = print + alike.first;
    scatter(print, ASPEN_PRINT_SIZE, number);
    memset(print, SALT, alike.first);
    memset(print + ASPEN_PRINT_SIZE - alike.last, SALT, alike.last);
    if (alike.first + alike.last == ASPEN_PRINT_SIZE - 1)
        differs[0] = (uint8_t)number;
    else
        put_u16(differs, mixed(number));
}

unsigned runs_of(unsigned changes)
{
    return (changes + ASPEN_MAX_RUN - 1) / ASPEN_MAX_RUN;
}

size_t change_list(uint8_t *to, struct alike alike, unsigned lbn, unsigned changes, const uint16_t *numbers)
{
    unsigned runs = runs_of(changes);
    uint8_t *print = to + aspen_list_size(runs, 0), *block = print + ASPEN_PRINT_SIZE * changes;
    put_u16(to, runs);
    for (unsigned r = 0; r < runs; r++) {
        unsigned done = r * ASPEN_MAX_RUN, left = changes - done;
        put_u16(to + aspen_list_size(r, 0), lbn + done);
        put_u16(to + aspen_list_size(r, 0) + 2, left < ASPEN_MAX_RUN ? left : ASPEN_MAX_RUN);
    }
    for (unsigned i = 0; i < changes; i++) {
        put_print(print + ASPEN_PRINT_SIZE * i, alike, numbers[i]);
        scatter(block + ASPEN_BLOCK_SIZE * i, ASPEN_BLOCK_SIZE, ~(uint64_t)numbers[i]);
    }
    return aspen_list_size(runs, changes);
}

static _Noreturn void give_up(const char *why)
{
    fprintf(stderr, "\nbench: making a box: %s\n", why);
    exit(1);
}

static void accepted(const char *call, uint16_t refusal)
{
    char why[64];
    if (refusal == ASPEN_OK)
        return;
    snprintf(why, sizeof why, "%s is refused by %u", call, refusal);
    give_up(why);
}

/* The next day's backup; block numbers go round among those held. */
static void take_backup(struct box *box, const struct past *past, unsigned volume, unsigned lbn, unsigned changes, unsigned number, unsigned among)
{
    uint16_t numbers[CELLS], at, taken, touched;
    for (unsigned i = 0; i < changes; i++)
        numbers[i] = (uint16_t)((number + i) % among);
    size_t len = change_list(list, past->alike, lbn, changes, numbers);
    box->day++;
    accepted("backup", aspen_backup(book, box->book_len, pool, box->pool_len, spare, box->book_len, (uint16_t)volume, box->day, list, len, &at,
                                    &taken, &touched));
    if (volume == 0)
        box->newest = at;
}

/* All slots but one are used: the rest of the records are changes of volume 0, a few each day, that never touch its LBN 0. */
static void few_changes_daily(struct box *box, const struct past *past)
{
    unsigned days = SLOTS - 1 - AIDS, records = past->records - FIRST_RECORDS + CELLS - past->cells;
    for (unsigned q = 0; q < days; q++) {
        unsigned changes = records * (q + 1) / days - records * q / days;
        unsigned lbn = 1 + 37 * q % (CELLS - 1 - changes);
        take_backup(box, past, 0, lbn, changes, 101 * q, past->held);
    }
}

static void live_through(struct box *box, const struct past *past)
{
    for (uint16_t v = 0; v < AIDS; v++)
        accepted("enrol", aspen_enrol(book, box->book_len, v, RETENTION));
    for (unsigned v = 0; v < AIDS; v++)
        take_backup(box, past, v, 0, v == AIDS - 1 ? past->cells : CELLS, v * CELLS, past->held);
    if (!past->left)
        few_changes_daily(box, past);
    for (unsigned v = 0; past->left && v < AIDS; v++)
        take_backup(box, past, v, 0, CELLS, 0, KEPT);
    uint16_t sound = 0;
    accepted("audit", aspen_audit(book, box->book_len, &sound));
    if (sound != 1)
        give_up("the audit says no");
}

static bool same_past(const struct past *a, const struct past *b)
{
    return same_alike(a->alike, b->alike) && a->used == b->used && a->left == b->left && a->blocks == b->blocks && a->held == b->held
           && a->records == b->records && a->cells == b->cells;
}

static const uint8_t *copy_of(const uint8_t *bytes, size_t len)
{
    uint8_t *copy = malloc(len);
    if (copy == NULL)
        give_up("no memory is left");
    memcpy(copy, bytes, len);
    return copy;
}

static void make(struct box *box, const struct past *past)
{
    uint16_t n = (uint16_t)past->blocks;
    *box = (struct box){ .blocks = n, .book = book, .pool = pool, .spare = spare, .room = room };
    box->book_len = aspen_book_size(n, CELLS, SLOTS, RECORDS);
    box->pool_len = aspen_pool_size(n);
    memset(pool, 0, POOL);
    memset(spare, 0, BOOK);
    accepted("format", aspen_format(book, box->book_len, n, CELLS, SLOTS, RECORDS));
    if (past->used)
        live_through(box, past);
    box->made_book = copy_of(book, box->book_len);
    box->made_pool = copy_of(pool, box->pool_len);
}

/* Boxes are kept, since making one takes longer than a sitting. */
void box_make(struct box *box, const struct past *past)
{
    static struct {
        struct past past;
        struct box box;
    } made[MOST_BOXES];
    static int number;
    int i = 0;
    while (i < number && !same_past(&made[i].past, past))
        i++;
    if (i == MOST_BOXES)
        give_up("there are too many of them");
    if (i == number) {
        make(&made[i].box, past);
        made[number++].past = *past;
    }
    *box = made[i].box;
    box_restore(box, 0);
}

void box_restore(struct box *box, unsigned from_block)
{
    size_t from = aspen_pool_size(from_block);
    memcpy(box->book, box->made_book, box->book_len);
    memcpy(box->pool + from, box->made_pool + from, box->pool_len - from);
}
