#include "store.h"

#include "dates.h"
#include "files.h"
#include "layouts.h"
#include "messages.h"
#include "seal.h"
#include "view.h"

#include <aspen.h>
#include <errno.h>
#include <fcntl.h>
#include <stdlib.h>
#include <string.h>
#include <sys/stat.h>
#include <unistd.h>

enum {
    BOOK_LIMIT =
        aspen_book_size(ASPEN_MAX_BLOCKS, ASPEN_MAX_LBNS, ASPEN_MAX_SLOTS, ASPEN_MAX_RECORDS),
    POOL_LIMIT = aspen_pool_size(ASPEN_MAX_BLOCKS)
};

static void or_fail(bool good)
{
    if (!good)
        fail(STATUS_FILES, "%s", file_failure());
}

static void name_files(struct store *store, const char *folder)
{
    store->folder = folder;
    store->book_path = join_text(folder, "/", "book");
    store->pool_path = join_text(folder, "/", "pool");
    store->book = bytes_new(0);
    store->pool = bytes_new(0);
    store->lengths = (struct lengths){NULL, 0};
    store->layout = ASPEN_LAYOUT;
    store->sealed = true;
    store->fault = NULL;
}

/* How much is read of the file `book`. A book of a later layout may be longer than today's, and has
 * to be read whole to be told from a damaged one. */
static size_t file_limit(void)
{
    return 2 * (size_t)BOOK_LIMIT + seal_limit() + 1;
}

static void read_book(struct store *store, enum lock_use use)
{
    int fd = file_open(store->book_path, O_RDONLY);
    struct bytes file;

    if (fd < 0 && file_missing())
        fail(STATUS_STORE, "%s is no store: it has no book; put back a copy of it, or format",
             store->folder);
    or_fail(fd >= 0);
    or_fail(file_read(fd, store->book_path, file_limit(), &file));
    /* The writer before may have ended between its rename and its sync. */
    if (use == LOCK_TO_WRITE)
        or_fail(file_sync(fd, store->book_path) && folder_sync(store->folder));
    close(fd);
    bytes_free(&store->book);
    store->fault = seal_open(file, &store->lock, &store->book, &store->lengths);
    store->layout = aspen_layout(store->book.at, store->book.length);
    store->sealed = store->book.length < file.length;
    bytes_free(&file);
}

static bool is_sound(struct bytes book)
{
    uint16_t sound = 0;

    return aspen_audit(book.at, book.length, &sound) == ASPEN_OK && sound == 1;
}

/* Looks over the book that was read. The audit takes a book of today's layout alone: an older one
 * is audited as the converters leave it. They work out afresh until when blocks are needed, so that
 * of an older book the audit answers for maps, counts and held blocks, and not for these days. */
static uint16_t look_over(struct store *store)
{
    uint16_t number = layouts_renew(&store->book);

    if (number == ASPEN_OK && store->fault == NULL && !is_sound(store->book))
        store->fault = "maps, counts or days don't agree with the journal";
    return number;
}

uint16_t store_open(struct store *store, const char *folder, enum lock_use use, bool wait)
{
    name_files(store, folder);
    lock_take(&store->lock, folder, use, wait);
    read_book(store, use);
    if (!store->lock.whole)
        fail(STATUS_STORE, "%s is damaged or from another program; put back a copy of it",
             store->lock.path);
    return look_over(store);
}

void store_load_pool(struct store *store)
{
    bytes_free(&store->pool);
    if (file_load(store->pool_path, POOL_LIMIT + 1, &store->pool))
        return;
    if (file_missing())
        fail(STATUS_STORE, "%s is no store: it has no pool; put back a copy of the store",
             store->folder);
    or_fail(false);
}

struct bytes store_take_pool(struct store *store)
{
    struct bytes pool = store->pool;

    store->pool = bytes_new(0);
    return pool;
}

void store_close(struct store *store)
{
    lock_drop(&store->lock);
    bytes_free(&store->book);
    bytes_free(&store->pool);
    lengths_free(&store->lengths);
    free(store->book_path);
    free(store->pool_path);
}

/* How long the file is, -1 if there is none. */
static long long length_of(const char *path)
{
    struct stat found;

    if (stat(path, &found) == 0)
        return found.st_size;
    if (errno != ENOENT)
        fail(STATUS_FILES, "can't look for %s: %s", path, strerror(errno));
    return -1;
}

/* A folder with a book is a store, and a pool with something in it may be what a store lost its
 * book of: neither is written over, nor is a file that is no pool of this size. */
static void check_makeable(const struct store *store, size_t pool_size)
{
    long long length = length_of(store->pool_path);
    struct bytes pool;

    if (length_of(store->book_path) >= 0)
        fail(STATUS_USAGE, "%s has a book already; format another folder", store->folder);
    if (length < 0)
        return;
    if (length > (long long)pool_size)
        fail(STATUS_USAGE, "%s is longer than the pool of this store; format another folder",
             store->pool_path);
    or_fail(file_load(store->pool_path, pool_size, &pool));
    for (size_t i = 0; i < pool.length; i++)
        if (pool.at[i] != 0)
            fail(STATUS_USAGE,
                 "%s has a pool with blocks in it and no book; put back the book, or format "
                 "another folder",
                 store->folder);
    bytes_free(&pool);
}

/* Zeros for all blocks, so that a disk too small for the pool shows now. */
static void write_new_pool(const struct store *store, size_t size)
{
    struct bytes zeros = bytes_new(size);
    int fd = file_open(store->pool_path, O_WRONLY | O_CREAT | O_TRUNC);

    or_fail(fd >= 0);
    or_fail(file_write(fd, store->pool_path, zeros.at, zeros.length) &&
            file_sync(fd, store->pool_path));
    close(fd);
    bytes_free(&zeros);
}

void store_make(const char *folder, bool wait, struct bytes book, long day_zero)
{
    size_t pool_size = aspen_pool_size(view_figures(book).blocks);
    struct store store;

    name_files(&store, folder);
    check_makeable(&store, pool_size);
    or_fail(folder_make(store.folder));
    lock_take_new(&store.lock, store.folder, wait);
    check_makeable(&store, pool_size); /* another format may have ended while this one waited */
    bytes_free(&store.book);
    store.book = bytes_copy(book);
    lock_fill(&store.lock, day_zero);
    write_new_pool(&store, pool_size);
    or_fail(folder_sync(store.folder));
    store_replace_book(&store); /* last: with its book the store is there */
    store_close(&store);
}

struct bytes store_taken(const struct store *store, struct bytes old_book)
{
    struct bytes before = view_blocks(old_book), after = view_blocks(store->book);
    struct bytes marks = bytes_new(view_figures(store->book).blocks);

    for (size_t p = 0; p < marks.length; p++)
        marks.at[p] = !view_held(before, (uint16_t)p) && view_held(after, (uint16_t)p) ? 1 : 0;
    bytes_free(&before);
    bytes_free(&after);
    return marks;
}

uint16_t store_write_blocks(const struct store *store, struct bytes marks)
{
    int fd = file_open(store->pool_path, O_WRONLY);
    uint16_t written = 0;

    or_fail(fd >= 0);
    for (size_t p = 0; p < marks.length; p++) {
        size_t at = aspen_pool_size(p);

        if (marks.at[p] == 0)
            continue;
        or_fail(file_write_at(fd, store->pool_path, store->pool.at + at, ASPEN_BLOCK_SIZE, at));
        written++;
    }
    or_fail(file_sync_bytes(fd, store->pool_path));
    close(fd);
    return written;
}

/* Replaces a file of the store, by way of book.new. */
static bool replace(const struct store *store, const char *path, mode_t mode, struct bytes file)
{
    char *temporary = join_text(store->book_path, ".new", "");
    struct replacement how = {.temporary = temporary, .mode = mode, .keep = true};
    bool good = file_replace(path, &how, file);

    free(temporary);
    return good;
}

static bool put_book(const struct store *store)
{
    struct bytes file = seal_make(store->book, &store->lengths, store->lock.id);
    bool good = replace(store, store->book_path, 0666, file);

    bytes_free(&file);
    return good;
}

static void make_last(const struct store *store)
{
    if (!folder_sync(store->folder))
        fail(STATUS_FILES,
             "%s; the new book is in place, but a power failure now may bring back the old one",
             file_failure());
}

void store_replace_book(const struct store *store)
{
    or_fail(put_book(store));
    make_last(store);
}

/* ---- the book of an older layout */

/* The name under which it is kept. */
static char *old_path(const struct store *store, unsigned layout)
{
    return text_of("%s.%u", store->book_path, layout);
}

/* Keeps the very file, for its owner alone. */
static bool keep_old(const struct store *store, const char *path)
{
    struct bytes file;
    bool good = file_load(store->book_path, file_limit(), &file);

    if (!good)
        return false;
    good = replace(store, path, 0600, file) && folder_sync(store->folder);
    bytes_free(&file);
    return good;
}

/* Whether the next command will find this book. */
static bool reads_back(const struct store *store)
{
    struct store found = {.folder = store->folder,
                          .lock = store->lock,
                          .book_path = store->book_path,
                          .book = bytes_new(0)};
    bool good;

    read_book(&found, LOCK_TO_READ);
    good = found.layout == ASPEN_LAYOUT && look_over(&found) == ASPEN_OK && found.fault == NULL &&
           found.book.length == store->book.length &&
           memcmp(found.book.at, store->book.at, store->book.length) == 0;
    bytes_free(&found.book);
    lengths_free(&found.lengths);
    return good;
}

void store_upgrade_book(const struct store *store)
{
    char *old = old_path(store, store->layout);

    if (!keep_old(store, old) || !put_book(store)) {
        unlink(old); /* the book is the old one still */
        or_fail(false);
    }
    make_last(store);
    if (!reads_back(store))
        fail(STATUS_FILES,
             "%s doesn't read back as it was written; put %s in its place, which is the old one, "
             "and look at the disk",
             store->book_path, old);
    free(old);
    store_drop_old(store);
}

bool store_drop_old(const struct store *store)
{
    bool dropped = false;

    for (unsigned layout = 1; layout < ASPEN_LAYOUT; layout++) {
        char *path = old_path(store, layout);

        if (file_remove(path))
            dropped = true;
        else if (!file_missing())
            note("%s; nothing needs it any more", file_failure());
        free(path);
    }
    if (dropped && !folder_sync(store->folder))
        note("%s; a power failure may bring back the old book beside the new one", file_failure());
    return dropped;
}

char *store_date(const struct store *store, long day, char *text)
{
    return date_write(store->lock.day_zero + day, text);
}

/* The files of a store: the three that it has, and one that is there for a while. */
static const char *const file_names[] = {"book", "pool", "lock", "book.new"};

enum { LASTING_FILES = 3, ALL_FILES };

/* Whether the name is one of these, or that of an old book that is kept. */
static bool is_own_name(const char *name)
{
    bool is = false;

    for (size_t i = 0; i < ALL_FILES; i++)
        is = is || strcmp(name, file_names[i]) == 0;
    for (unsigned layout = 1; layout < ASPEN_LAYOUT; layout++) {
        char *kept = text_of("book.%u", layout);

        is = is || strcmp(name, kept) == 0;
        free(kept);
    }
    return is;
}

/* Whether the folder is a store, be it one with a damaged lock. */
static bool is_store(const char *folder)
{
    bool all = true;

    for (size_t i = 0; i < LASTING_FILES; i++) {
        char *path = join_text(folder, "/", file_names[i]);
        struct stat found;

        all = all && lstat(path, &found) == 0;
        free(path);
    }
    return all || lock_is_ours(folder);
}

bool store_has_file(const char *path)
{
    const char *slash = strrchr(path, '/');
    char *folder = folder_of(path);
    bool has = is_own_name(slash != NULL ? slash + 1 : path) && is_store(folder);

    free(folder);
    return has;
}
