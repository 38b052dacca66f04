/*
 * aspen.h: the clinic backup box.
 *
 * An aid writes the list of its changed blocks (aspen_write_list). The box takes such a list as
 * a backup (aspen_backup), keeps equal blocks once, frees what no kept backup needs
 * (aspen_collect), and reads old backups, a block (aspen_read) or a run of blocks (aspen_restore).
 * When the aid leaves the clinic, its volume is retired (aspen_retire).
 * aspen_play makes a whole list of such calls that is stored as bytes. A book of an earlier layout
 * becomes one that these calls take by converters (aspen_convert_1_2, then aspen_convert_2_3).
 *
 * Memory. The box lives in two buffers of the caller's: the book, which notes what each volume
 * held and when, and the pool, which holds the blocks. The library allocates nothing and keeps
 * no pointer after a call. Hashing, transport and files are the caller's part. Days are counted
 * by the caller, and the book's day is that of its last backup, collection or retirement.
 *
 * Pointers. No pointer may be null, even at length 0. The buffers and answers given to one call
 * must not overlap. Byte buffers need no alignment; numbers in them are little-endian.
 *
 * Results. Each function returns ASPEN_OK or the number of its refusal. Checks are made in the
 * order of the numbers and the first that fails decides; 11 to 14 are checked change by change, or
 * LBN by LBN for a retirement, and 21 before 18.
 * A refused call leaves every buffer but the spare as it was and writes no answer. A byte
 * buffer may hold any bytes and have any length: what doesn't fit is refused.
 *
 * Threads. There is no global state. Calls on different buffers may run at the same time, and so
 * may calls that only read the same ones. While a call writes a buffer nothing else may use it;
 * to have one writer at a time is the caller's duty.
 *
 * Stack. On x86-64 aspen_play takes 49,840 bytes of it, aspen_audit 49,456, aspen_backup 25,024,
 * aspen_convert_2_3 8,464 and aspen_restore 2,384, nearly all for tables that live for one call;
 * every other function takes 320 at most.
 */
#ifndef ASPEN_H
#define ASPEN_H

#include <stddef.h>
#include <stdint.h>

#ifdef __cplusplus
extern "C" {
#endif

/* The version of the library, as text and in numbers. */
#define ASPEN_VERSION "0.4.0"
#define ASPEN_VERSION_MAJOR 0
#define ASPEN_VERSION_MINOR 4
#define ASPEN_VERSION_PATCH 0

/* Limits. The numbers of blocks, slots and records, the blocks of a run, and the retention, are 1
 * at least. */
#define ASPEN_BLOCK_SIZE 512      /* bytes of a block */
#define ASPEN_PRINT_SIZE 16       /* bytes of a fingerprint */
#define ASPEN_VOLUMES 8           /* volumes are 0 to 7 */
#define ASPEN_MAX_BLOCKS 4096     /* n: blocks of the pool */
#define ASPEN_MAX_LBNS 1024       /* l: logical blocks of each volume */
#define ASPEN_MAX_RUN 64          /* blocks of one run of a change list */
#define ASPEN_MAX_SLOTS 1024      /* s: backups and retirements that the book has room for */
#define ASPEN_MAX_RECORDS 16384   /* j: changes that the book has room for */
#define ASPEN_MAX_RETENTION 5000  /* days */
#define ASPEN_MAX_DAY 60000

/* The layout of the books that aspen_format makes and that the calls take. Converters take and
 * write others. */
#define ASPEN_LAYOUT 3

/* Sizes in bytes. Constant expressions where the arguments are; each argument is used once, but for
 * that of aspen_list_bound, which is used twice. */

/* The book of n pool blocks, l logical blocks a volume, s slots and j records, in this layout. */
#define aspen_book_size_of(layout, n, l, s, j) \
    ((size_t)36 + (size_t)((layout) == 1 ? 20 : 21) * (n) + (size_t)16 * (l) + (size_t)8 * (s) + \
     (size_t)6 * (j))

/* The same in the layout that the calls take. */
#define aspen_book_size(n, l, s, j) aspen_book_size_of(ASPEN_LAYOUT, n, l, s, j)

/* The pool of n blocks. */
#define aspen_pool_size(n) ((size_t)ASPEN_BLOCK_SIZE * (n))

/* The blocks of a run of so many, as aspen_restore writes them. */
#define aspen_run_size(length) ((size_t)ASPEN_BLOCK_SIZE * (length))

/* The change list of so many changed blocks in so many runs. */
#define aspen_list_size(runs, changes) \
    ((size_t)2 + (size_t)4 * (runs) + (size_t)(ASPEN_PRINT_SIZE + ASPEN_BLOCK_SIZE) * (changes))

/* The longest list that aspen_write_list writes for l blocks: all of them, in as few runs as there
 * can be. */
#define aspen_list_bound(l) aspen_list_size(((l) + (ASPEN_MAX_RUN - 1)) / ASPEN_MAX_RUN, l)

/* Rows that aspen_backups, aspen_cells and aspen_blocks write. */
#define ASPEN_BACKUP_ROW 8   /* bytes for a backup */
#define ASPEN_CELL_ROW 2     /* bytes for a logical block */
#define ASPEN_BLOCK_ROW 22   /* bytes for a pool block */

/* Their outputs for so many backups, for l logical blocks and for n pool blocks. */
#define aspen_backups_size(backups) ((size_t)ASPEN_BACKUP_ROW * (backups))
#define aspen_cells_size(l) ((size_t)ASPEN_CELL_ROW * (l))
#define aspen_blocks_size(n) ((size_t)ASPEN_BLOCK_ROW * (n))

/* Numbers that stand for none. */
#define ASPEN_UNMAPPED_PBN 65535  /* no pool block at this LBN; ASPEN_UNMAPPED is a refusal */
#define ASPEN_NO_END 65535        /* no last day: a volume isn't retired, and its newest backup is
                                     always kept */

/* A call in a list for aspen_play starts with a head of so many bytes. */
#define ASPEN_CALL_HEAD 14

/* The longest answers of a list of so many backups, so many reads and so many other calls; a list
 * with restores has aspen_runs_bound more. */
#define aspen_answers_bound(backups, reads, others) \
    ((size_t)7 * (backups) + (size_t)(1 + ASPEN_BLOCK_SIZE) * (reads) + (size_t)3 * (others))

/* The longest answers of so many restores, whose lengths add up to so many blocks. */
#define aspen_runs_bound(restores, blocks) ((size_t)3 * (restores) + aspen_run_size(blocks))

/* The kinds of calls in a list, with the numbers of the head that each uses. */
enum aspen_call {
    ASPEN_CALL_ENROL = 0,    /* a is the volume, b the retention */
    ASPEN_CALL_BACKUP = 1,   /* a is the volume, b the day; the data is the change list */
    ASPEN_CALL_COLLECT = 2,  /* a is the day */
    ASPEN_CALL_READ = 3,     /* a is the volume, b the backup's number, c the LBN */
    ASPEN_CALL_AUDIT = 4,    /* none */
    ASPEN_CALL_RESTORE = 5,  /* a and b as for a read, c the first LBN, d the length */
    ASPEN_CALL_RETIRE = 6    /* a is the volume, b the day */
};

/* The tags of the answers to a list, with what follows each. */
enum aspen_answer {
    ASPEN_ANSWER_NUMBER = 0,  /* the number of the call's refusal; ASPEN_OK for an enrol */
    ASPEN_ANSWER_BACKED = 1,  /* of a backup: number, taken, touched */
    ASPEN_ANSWER_FREED = 2,   /* one number: of a collect freed, of a retire cells */
    ASPEN_ANSWER_BLOCK = 3,   /* of a read: the ASPEN_BLOCK_SIZE bytes of the block */
    ASPEN_ANSWER_SOUND = 4,   /* of an audit: sound */
    ASPEN_ANSWER_RUN = 5      /* of a restore: the length, and then the bytes of its blocks */
};

/* What the functions return: 0, or the number of a refusal. */
enum aspen_result {
    ASPEN_OK = 0,
    ASPEN_BAD_LAYOUT = 1,     /* the book's length, layout number or sizes break the layout */
    ASPEN_BAD_FORM = 2,       /* the book is otherwise out of form: it is damaged */
    ASPEN_BAD_POOL = 3,       /* the pool isn't aspen_pool_size(n) bytes long */
    ASPEN_SHORT_SPARE = 4,    /* the spare is shorter than the book, or a converter's output than
                                 the book to write */
    ASPEN_BAD_VOLUME = 5,     /* no such volume, or not enrolled; for enrol, enrolled already; for
                                 backup and retire, retired too */
    ASPEN_BAD_RETENTION = 6,  /* the retention is 0 or above ASPEN_MAX_RETENTION */
    ASPEN_BAD_DAY = 7,        /* above the limit, before the book's, not after the last backup's */
    ASPEN_BAD_LIST = 8,       /* the bytes are no change list for this book */
    ASPEN_NO_SLOT = 9,        /* all backup slots are used */
    ASPEN_NO_RECORD = 10,     /* the changes, or the cells to retire, are more than the records
                                 left */
    ASPEN_OTHER_BYTES = 11,   /* the held block with this fingerprint has other bytes */
    ASPEN_NO_BLOCK = 12,      /* no block of the pool is free */
    ASPEN_COUNT_ZERO = 13,    /* the replaced block has count 0: the book is damaged */
    ASPEN_COUNT_FULL = 14,    /* the block's count is 65,535 already: the book is damaged */
    ASPEN_NO_BACKUP = 15,     /* the volume has no backup of this number */
    ASPEN_NOT_KEPT = 16,      /* that backup's days have run out */
    ASPEN_BAD_LBN = 17,       /* the LBN is l or more */
    ASPEN_UNMAPPED = 18,      /* that backup has no block at this LBN */
    ASPEN_BAD_INPUT = 19,     /* writer: a wrong l, mark or length; play: no list of calls */
    ASPEN_SHORT_OUTPUT = 20,  /* the output is shorter than what is to be written, or may be */
    ASPEN_BAD_RUN = 21,       /* the run ends after the volume, or the output is too short for it */
    ASPEN_COUNT_WIDE = 22     /* a count is above 255, for which layout 1 has no room */
};

/*
 * Writes a fresh book of these sizes over any bytes: day 0, no volume enrolled, every block
 * free. book_len has to be aspen_book_size(n, l, s, j). The pool needs no preparing.
 *
 * Returns ASPEN_OK or ASPEN_BAD_LAYOUT.
 */
uint16_t aspen_format(uint8_t *book, size_t book_len, uint16_t n, uint16_t l, uint16_t s,
                      uint16_t j);

/*
 * Enrols a volume, 0 to 7. A backup of it is kept for `retention` days from the day on which it was
 * taken; the newest one is always kept while the volume isn't retired. So after a pause longer than
 * that the backup before is past its days as soon as the next one is taken. A retired volume can't
 * be enrolled again.
 *
 * Returns ASPEN_OK, ASPEN_BAD_LAYOUT, ASPEN_BAD_FORM, ASPEN_BAD_VOLUME or ASPEN_BAD_RETENTION.
 */
uint16_t aspen_enrol(uint8_t *book, size_t book_len, uint16_t volume, uint16_t retention);

/*
 * Takes the change list `list` as the volume's backup of this day, which has to be after its
 * last one and not before the book's day. The whole list is taken or nothing. No run may have more
 * than ASPEN_MAX_RUN blocks: a list with a longer one, as lists had them before there was this
 * limit, is refused by ASPEN_BAD_LIST.
 *
 * The spare is room to work in, as long as the book at least; what it holds afterwards means
 * nothing. The pool changes only at blocks that were free before the call, so a host that
 * stores the pool first and then the book loses no backup if the power fails in between.
 * ASPEN_COUNT_ZERO and ASPEN_COUNT_FULL never come in a book that calls made: it is damaged then.
 *
 * Answers: *number, the backup's number, counted from 1 in each volume; *taken, how many free
 * blocks it took; *touched, how many changes there were plus how many of them replaced a block.
 *
 * Returns ASPEN_OK, ASPEN_BAD_LAYOUT, ASPEN_BAD_FORM, ASPEN_BAD_POOL, ASPEN_SHORT_SPARE,
 * ASPEN_BAD_VOLUME, ASPEN_BAD_DAY, ASPEN_BAD_LIST, ASPEN_NO_SLOT, ASPEN_NO_RECORD,
 * ASPEN_OTHER_BYTES, ASPEN_NO_BLOCK, ASPEN_COUNT_ZERO or ASPEN_COUNT_FULL.
 */
uint16_t aspen_backup(uint8_t *book, size_t book_len, uint8_t *pool, size_t pool_len,
                      uint8_t *spare, size_t spare_len, uint16_t volume, uint16_t day,
                      const uint8_t *list, size_t list_len, uint16_t *number, uint16_t *taken,
                      uint16_t *touched);

/*
 * Retires a volume, whose aid leaves the clinic, on this day, which has to be after its last backup
 * and not before the book's day. No LBN has a block any more, and the volume takes no more backups.
 * Its old backups are read until their days run out, and the newest isn't exempt any more: where
 * that one's days have run out already, it is gone at once, and the next collection frees its
 * blocks. A volume without backups can be retired too.
 *
 * A retirement takes one of the backup slots, and a record for each LBN that has a block. It is no
 * backup, and has no number. The spare is as for aspen_backup; the pool isn't needed.
 * ASPEN_COUNT_ZERO never comes in a book that calls made: it is damaged then.
 *
 * Answer: *cells, how many LBNs had a block.
 *
 * Returns ASPEN_OK, ASPEN_BAD_LAYOUT, ASPEN_BAD_FORM, ASPEN_SHORT_SPARE, ASPEN_BAD_VOLUME,
 * ASPEN_BAD_DAY, ASPEN_NO_SLOT, ASPEN_NO_RECORD or ASPEN_COUNT_ZERO.
 */
uint16_t aspen_retire(uint8_t *book, size_t book_len, uint8_t *spare, size_t spare_len,
                      uint16_t volume, uint16_t day, uint16_t *cells);

/*
 * Frees every held block with count 0 whose days ended before this day: in a book that calls made,
 * exactly those that no volume's current state and no backup kept on this day needs. The day may
 * not be before the book's, and becomes it.
 *
 * Answer: *freed, how many.
 *
 * Returns ASPEN_OK, ASPEN_BAD_LAYOUT, ASPEN_BAD_FORM or ASPEN_BAD_DAY.
 */
uint16_t aspen_collect(uint8_t *book, size_t book_len, uint16_t day, uint16_t *freed);

/*
 * Finds the block that a volume had at an LBN in its backup of this number.
 *
 * Answer: *at, where the block's ASPEN_BLOCK_SIZE bytes start in the pool. A caller who needs
 * them past the next backup has to copy them.
 *
 * Returns ASPEN_OK, ASPEN_BAD_LAYOUT, ASPEN_BAD_FORM, ASPEN_BAD_POOL, ASPEN_BAD_VOLUME,
 * ASPEN_NO_BACKUP, ASPEN_NOT_KEPT, ASPEN_BAD_LBN or ASPEN_UNMAPPED.
 */
uint16_t aspen_read(const uint8_t *book, size_t book_len, const uint8_t *pool, size_t pool_len,
                    uint16_t volume, uint16_t number, uint16_t lbn, uint32_t *at);

/*
 * Writes a run of blocks, as a volume had them in its backup of this number: those of the LBNs from
 * `first` on, `length` of them. The output's first aspen_run_size(length) bytes become what
 * aspen_read finds at these LBNs, one after the other; what follows is as it was. It may be longer
 * than the run. A length of 0 writes nothing, and everything but ASPEN_UNMAPPED is checked.
 *
 * If one of the blocks isn't there, none is written: the call is refused by ASPEN_UNMAPPED. By
 * ASPEN_BAD_RUN it is refused if `first` plus `length` is above l, or if the output is shorter than
 * the run; this comes before ASPEN_UNMAPPED.
 *
 * Returns ASPEN_OK, ASPEN_BAD_LAYOUT, ASPEN_BAD_FORM, ASPEN_BAD_POOL, ASPEN_BAD_VOLUME,
 * ASPEN_NO_BACKUP, ASPEN_NOT_KEPT, ASPEN_BAD_RUN or ASPEN_UNMAPPED.
 */
uint16_t aspen_restore(const uint8_t *book, size_t book_len, const uint8_t *pool, size_t pool_len,
                       uint16_t volume, uint16_t number, uint16_t first, uint16_t length,
                       uint8_t *out, size_t out_len);

/*
 * Replays the book's journal and compares: the maps, the counts, the days until which blocks are
 * needed, that held fingerprints differ, and that nothing needed is free.
 *
 * Answer: *sound, 1 if all of it agrees, else 0.
 *
 * Returns ASPEN_OK, ASPEN_BAD_LAYOUT or ASPEN_BAD_FORM.
 */
uint16_t aspen_audit(const uint8_t *book, size_t book_len, uint16_t *sound);

/*
 * Checks that the book is in form, as every call on a book but aspen_format does first: that
 * every field is in its range, backups stand in order and unused places are zero. A book in form
 * may still be unsound; see aspen_audit.
 *
 * Returns ASPEN_OK, ASPEN_BAD_LAYOUT or ASPEN_BAD_FORM.
 */
uint16_t aspen_form(const uint8_t *book, size_t book_len);

/*
 * Counts the blocks of the book.
 *
 * Answers: *blocks, how many the pool has; *held, how many of them are held; *waiting, how many
 * of those have count 0, so that they wait for a collection; *references, the sum of the counts.
 *
 * Returns ASPEN_OK, ASPEN_BAD_LAYOUT or ASPEN_BAD_FORM.
 */
uint16_t aspen_count(const uint8_t *book, size_t book_len, uint16_t *blocks, uint16_t *held,
                     uint16_t *waiting, uint32_t *references);

/*
 * What a host shows of a book: it needs to know no place in it. These calls write neither book nor
 * pool. Rows are made of numbers of two bytes, which aspen_u16 reads. An output may be longer than
 * its rows; what follows them is as it was.
 */

/*
 * Tells the sizes that the book was formatted with.
 *
 * Answers: *blocks, pool blocks; *cells, logical blocks of each volume; *slots, backups and
 * retirements that the book has room for; *records, changes that it has room for.
 *
 * Returns ASPEN_OK, ASPEN_BAD_LAYOUT or ASPEN_BAD_FORM.
 */
uint16_t aspen_sizes(const uint8_t *book, size_t book_len, uint16_t *blocks, uint16_t *cells,
                     uint16_t *slots, uint16_t *records);

/*
 * Tells how much of the book is used.
 *
 * Answers: *slots, backups and retirements so far; *records, their changes so far; *day, the book's
 * day.
 *
 * Returns ASPEN_OK, ASPEN_BAD_LAYOUT or ASPEN_BAD_FORM.
 */
uint16_t aspen_used(const uint8_t *book, size_t book_len, uint16_t *slots, uint16_t *records,
                    uint16_t *day);

/*
 * Tells about an enrolled volume.
 *
 * Answers: *retention, the days that it was enrolled with; *backups, how many it has; *retired, the
 * day on which it was retired, ASPEN_NO_END while it isn't.
 *
 * Returns ASPEN_OK, ASPEN_BAD_LAYOUT, ASPEN_BAD_FORM or ASPEN_BAD_VOLUME.
 */
uint16_t aspen_volume(const uint8_t *book, size_t book_len, uint16_t volume, uint16_t *retention,
                      uint16_t *backups, uint16_t *retired);

/*
 * Lists the backups of a volume, from number 1 on. A row of ASPEN_BACKUP_ROW bytes has four
 * numbers:
 *   0  the backup's day
 *   2  how many changes it has
 *   4  the last day on which it is kept, its day plus the retention; ASPEN_NO_END for the newest of
 *      a volume that isn't retired
 *   6  1 if it is kept at the book's day, else 0
 * aspen_backups_size(backups) bytes are enough, with the backups that aspen_volume answers.
 *
 * Answer: *count, how many rows were written.
 *
 * Returns ASPEN_OK, ASPEN_BAD_LAYOUT, ASPEN_BAD_FORM, ASPEN_BAD_VOLUME or ASPEN_SHORT_OUTPUT.
 */
uint16_t aspen_backups(const uint8_t *book, size_t book_len, uint16_t volume, uint8_t *out,
                       size_t out_len, uint16_t *count);

/*
 * Writes a volume's current map: for each LBN a row of ASPEN_CELL_ROW bytes with the number of the
 * pool block there, ASPEN_UNMAPPED_PBN if there is none. aspen_cells_size(l) bytes are enough.
 *
 * Returns ASPEN_OK, ASPEN_BAD_LAYOUT, ASPEN_BAD_FORM, ASPEN_BAD_VOLUME or ASPEN_SHORT_OUTPUT.
 */
uint16_t aspen_cells(const uint8_t *book, size_t book_len, uint16_t volume, uint8_t *out,
                     size_t out_len);

/*
 * Lists the blocks of the pool. A row of ASPEN_BLOCK_ROW bytes has three numbers and the
 * fingerprint:
 *   0  1 if the block is held, 0 if it is free
 *   2  its count: the cells of current maps that name it
 *   4  its expiry: once its count is 0, the last day on which a backup needs it
 *   6  its fingerprint of ASPEN_PRINT_SIZE bytes, all 0 if it is free
 * aspen_blocks_size(n) bytes are enough.
 *
 * Returns ASPEN_OK, ASPEN_BAD_LAYOUT, ASPEN_BAD_FORM or ASPEN_SHORT_OUTPUT.
 */
uint16_t aspen_blocks(const uint8_t *book, size_t book_len, uint8_t *out, size_t out_len);

/*
 * Plays a list of calls that is stored as bytes, as a host would make them: one after the other,
 * each as by its function, on this book, pool and spare. A call that is refused is answered by its
 * number, and the list goes on. Bytes that are no list are refused as a whole.
 *
 * A call in bytes is a head of ASPEN_CALL_HEAD bytes and then its data:
 *    0  its kind in one byte, from ASPEN_CALL_ENROL to ASPEN_CALL_RETIRE
 *    1  a zero byte
 *    2  four numbers of two bytes, a, b, c and d; what its kind doesn't use is 0
 *   10  how many bytes of data follow, in four bytes; 0 unless it is a backup
 * A list is calls one after the other to the end of the bytes; it may have none.
 *
 * The answers stand one after the other at the front of `answers`, each a tag of one byte, from
 * ASPEN_ANSWER_NUMBER to ASPEN_ANSWER_RUN, and then numbers of two bytes, a block, or a length and
 * so many blocks. There has to be room for the longest that these calls can have
 * (aspen_answers_bound, and aspen_runs_bound for restores): 513 bytes for a read, 7 for a backup,
 * aspen_run_size of its length and 3 for a restore, whatever that length is, and 3 for any other
 * call. Room above 4,294,967,295 bytes isn't counted. A restore in a list has an output of just its
 * run, so ASPEN_BAD_RUN comes for its end alone.
 *
 * Answer: *written, the length of the answers in bytes. What follows them is as it was.
 *
 * Returns ASPEN_OK, ASPEN_BAD_INPUT or ASPEN_SHORT_OUTPUT.
 */
uint16_t aspen_play(uint8_t *book, size_t book_len, uint8_t *pool, size_t pool_len,
                    uint8_t *spare, size_t spare_len, const uint8_t *calls, size_t calls_len,
                    uint8_t *answers, size_t answers_len, uint32_t *written);

/*
 * Writes the change list of the marked blocks of a volume of l blocks, for aspen_backup.
 *   marks   l bytes, 1 for a block that changed and 0 for one that didn't
 *   prints  l fingerprints of ASPEN_PRINT_SIZE bytes; a salt that all share may stand at either end
 *   image   l blocks of ASPEN_BLOCK_SIZE bytes
 *   list    the output; aspen_list_bound(l) bytes are always enough
 * A longest run of marked blocks, which no marked block stands beside, is cut from its start into
 * pieces of ASPEN_MAX_RUN blocks, the rest last. Each piece is a run of the list.
 *
 * Answer: *written, the list's length in bytes. The output past it is as it was.
 *
 * Returns ASPEN_OK, ASPEN_BAD_INPUT or ASPEN_SHORT_OUTPUT.
 */
uint16_t aspen_write_list(uint16_t l, const uint8_t *marks, size_t marks_len,
                          const uint8_t *prints, size_t prints_len, const uint8_t *image,
                          size_t image_len, uint8_t *list, size_t list_len, uint32_t *written);

/*
 * Converters take a book in one layout and write it to the output in another. The book is only
 * read, and the pool is the same for both. An output of aspen_converted_size bytes is enough; it may
 * be longer, and what follows the book there is as it was. A book of any other layout than the one
 * taken is refused by ASPEN_BAD_LAYOUT. A host that meets an old book goes from each layout to the
 * next.
 *
 * Between layouts 1 and 2 every field stays equal but the layout number: the count of a block has
 * one byte in layout 1 and two in layout 2. Layout 3 has the same places as layout 2 and another rule
 * of what is kept: in layouts 1 and 2 a backup was kept for its days after that of the next backup.
 * Only in layout 3 are there retirements.
 */

/*
 * Writes a book of layout 1 in layout 2. aspen_convert_2_1 gives the very same book back.
 *
 * Returns ASPEN_OK, ASPEN_BAD_LAYOUT, ASPEN_BAD_FORM or ASPEN_SHORT_SPARE.
 */
uint16_t aspen_convert_1_2(const uint8_t *book, size_t book_len, uint8_t *out, size_t out_len);

/*
 * Writes a book of layout 2 in layout 1, for a program that takes no other. This can't be done if a
 * block's count is above 255.
 *
 * Returns ASPEN_OK, ASPEN_BAD_LAYOUT, ASPEN_BAD_FORM, ASPEN_SHORT_SPARE or ASPEN_COUNT_WIDE.
 */
uint16_t aspen_convert_2_1(const uint8_t *book, size_t book_len, uint8_t *out, size_t out_len);

/*
 * Writes a book of layout 2 in layout 3. Every field stays equal but the layout number and the
 * expiries of the blocks, which are worked out afresh from the journal, as aspen_audit asks for
 * them. There is no way back.
 *
 * A sound book stays sound. A backup that was kept until now by the day of the next one may be past
 * its days then: at most one of each volume. An expiry that was wrong is right afterwards, so whoever
 * wants to know about it has to audit the book before, with a library that takes layout 2.
 *
 * Returns ASPEN_OK, ASPEN_BAD_LAYOUT, ASPEN_BAD_FORM or ASPEN_SHORT_SPARE.
 */
uint16_t aspen_convert_2_3(const uint8_t *book, size_t book_len, uint8_t *out, size_t out_len);

/* A short text for a number that a function returned. */
static inline const char *aspen_text(uint16_t number)
{
    static const char *const texts[] = {
        "accepted",
        "the book's length, layout number or sizes are wrong",
        "the book is out of form: it is damaged",
        "the pool has the wrong length",
        "the spare is shorter than the book, or a converter's output than the book to write",
        "no such volume, not enrolled, or retired; for enrol, enrolled already",
        "the retention is out of range",
        "the day is above the limit or too early",
        "no change list for this book",
        "all backup slots are used",
        "not enough records left",
        "a held block with this fingerprint has other bytes",
        "no block of the pool is free",
        "a replaced block has count 0: the book is damaged",
        "the block's count is 65,535 already: the book is damaged",
        "the volume has no backup of this number",
        "the backup isn't kept any more",
        "the volume has no such LBN",
        "the backup has no block at this LBN",
        "wrong inputs of the writer, or no list of calls",
        "the output is too short",
        "the run ends after the volume, or the output is too short",
        "a count is above 255, for which layout 1 has no room"
    };

    return number < sizeof texts / sizeof texts[0] ? texts[number] : "no number of the box";
}

/* The number of two bytes that starts here, as rows, change lists and answers have them. */
static inline uint16_t aspen_u16(const uint8_t *at)
{
    return (uint16_t)(at[0] | at[1] << 8);
}

/* The layout number that a book starts with, 0 where there are fewer than two bytes. Whether the
 * rest is a book of that layout isn't looked at. */
static inline uint16_t aspen_layout(const uint8_t *book, size_t book_len)
{
    return book_len < 2 ? 0 : aspen_u16(book);
}

/* How long this book is in that layout, by the sizes in its first 10 bytes: the output that a
 * converter needs. 0 where there are fewer. */
static inline size_t aspen_converted_size(uint16_t layout, const uint8_t *book, size_t book_len)
{
    if (book_len < 10)
        return 0;
    return aspen_book_size_of(layout, aspen_u16(book + 2), aspen_u16(book + 4), aspen_u16(book + 6),
                              aspen_u16(book + 8));
}

#ifdef __cplusplus
}
#endif

#endif
