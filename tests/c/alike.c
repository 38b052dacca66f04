/* Fingerprints alike: in which bytes they differ makes no difference to what is found. */
#include <aspen.h>

#include "books.h"
#include "box.h"
#include "check.h"
#include "tests.h"

#include <string.h>

/* Fingerprints that agree with a given one in 0 to 16 bytes from one end on, up to the first that
 * differs. In a list each has a letter, from a for 0 to q for 16, and a block of that letter. */
enum end { FAR_END, NEAR_END };

struct family {
    const char *about;
    const uint8_t *given;
    enum end from;
};

enum { MEMBERS = ASPEN_PRINT_SIZE + 1 };
static const char rising[] = "abcdefghijklmnopq", falling[] = "qponmlkjihgfedcba";

/* Where the byte stands that is looked at after k others. */
static unsigned place(enum end from, unsigned k)
{
    return from == FAR_END ? ASPEN_PRINT_SIZE - 1 - k : k;
}

static unsigned agreeing(const uint8_t *print, const struct family *family)
{
    unsigned k = 0;

    while (k < ASPEN_PRINT_SIZE
           && print[place(family->from, k)] == family->given[place(family->from, k)])
        k++;
    return k;
}

/* Where the library's index (crates/finder) has a fingerprint: only those of one bucket are ever
 * compared. */
static uint32_t bucket(const uint8_t *print)
{
    uint32_t first = get_u16(print, 0), last = get_u16(print, ASPEN_PRINT_SIZE - 2);

    return (first + last * 65536u) * 2654435769u >> 20;
}

/* A member of the given one's own bucket, by two bytes at the other end. Where 15 bytes agree there
 * is none: two of a bucket never differ in the first or the last byte alone. */
static void put_member(uint8_t *print, const struct family *family, unsigned k)
{
    uint8_t *others = print + (family->from == FAR_END ? 0 : ASPEN_PRINT_SIZE - 2);
    unsigned v;

    memcpy(print, family->given, ASPEN_PRINT_SIZE);
    if (k < ASPEN_PRINT_SIZE)
        print[place(family->from, k)] ^= 0x80;
    for (v = 0; k < ASPEN_PRINT_SIZE - 1 && v < 65536; v++) {
        put_u16(others, 0, v);
        if (agreeing(print, family) == k && bucket(print) == bucket(family->given))
            break;
    }
    CHECK_EQ(agreeing(print, family), k);
    CHECK_EQ(bucket(print) == bucket(family->given), k != ASPEN_PRINT_SIZE - 1);
}

static uint8_t *print_in(const struct buffer *list, unsigned change)
{
    return list->bytes + aspen_list_size(1, 0) + ASPEN_PRINT_SIZE * change;
}

/* A list of one run from this LBN, with these members' fingerprints and a letter for each block. */
static struct buffer list_with(const struct family *family, unsigned lbn, const char *members,
                               const char *blocks)
{
    struct buffer list = list_of(lbn, members, blocks);
    unsigned i;

    for (i = 0; members[i] != '\0'; i++)
        put_member(print_in(&list, i), family, (unsigned)(members[i] - 'a'));
    return list;
}

static struct buffer members_from(const struct family *family, unsigned lbn, const char *members)
{
    return list_with(family, lbn, members, members);
}

/* With volume 0 enrolled, and room for two lists of all members and some changes more; one block is
 * left when all members are held. */
static struct box box_for_members(void)
{
    struct box box = box_of(MEMBERS + 1, 2 * MEMBERS, 5, 3 * MEMBERS);

    call_enrol(&box, 0, 10, ASPEN_OK);
    return box;
}

/* All are held by a first backup, in this order from block 0 on. */
static struct box box_with(const struct family *family, const char *members)
{
    struct box box = box_for_members();
    struct backed_up answers = call_backup(&box, 0, 1, members_from(family, 0, members), ASPEN_OK);

    CHECK_EQ(answers.taken, strlen(members));
    return box;
}

/* The block that the newest backup, of this number, has at an LBN. */
static void check_block(const struct box *box, uint16_t number, unsigned lbn, unsigned pbn,
                        char letter)
{
    uint8_t block[ASPEN_BLOCK_SIZE];
    size_t at = aspen_pool_size(pbn);

    memset(block, letter, sizeof block);
    CHECK_EQ(call_read(box, 0, number, (uint16_t)lbn, ASPEN_OK), at);
    CHECK_BYTES(box->pool.bytes + at, block, sizeof block);
}

/* Each is taken once, and found where it was taken when all are sent again in some order. */
static void check_found(const struct family *family, const char *held, const char *again)
{
    struct box box = box_with(family, held);
    unsigned i;

    CHECK_EQ(call_backup(&box, 0, 2, members_from(family, MEMBERS, again), ASPEN_OK).taken, 0);
    for (i = 0; i < MEMBERS; i++) {
        check_block(&box, 2, i, i, held[i]);
        check_block(&box, 2, MEMBERS + i, (unsigned)(strchr(held, again[i]) - held), again[i]);
    }
    CHECK_EQ(call_audit(&box, ASPEN_OK), 1);
    box_free(&box);
}

/* One is held, and the other is sent over the same bytes: it is a block of its own. */
static void check_apart(const struct family *family, const char *held, const char *sent)
{
    struct box box = box_with(family, held);

    CHECK_EQ(call_backup(&box, 0, 2, list_with(family, 1, sent, held), ASPEN_OK).taken, 1);
    check_block(&box, 2, 0, 0, held[0]);
    check_block(&box, 2, 1, 1, held[0]);
    CHECK_EQ(call_audit(&box, ASPEN_OK), 1);
    box_free(&box);
}

static void test_apart(const struct family *family)
{
    char member[2] = "a";

    for (; member[0] < 'q'; member[0]++) {
        check_apart(family, "q", member);
        check_apart(family, member, "q");
    }
}

/* Other bytes under the fingerprint of a member are refused, whether it was held before or is taken
 * by the same list. */
static void test_other_bytes(const struct family *family)
{
    struct box box = box_with(family, rising);
    const char *member;
    char twice[3] = "..";

    for (member = rising; *member != '\0'; member++) {
        struct box fresh = box_for_members();

        twice[0] = twice[1] = *member;
        call_backup(&box, 0, 2, list_with(family, 0, twice + 1, "X"), ASPEN_OTHER_BYTES);
        call_backup(&fresh, 0, 1, list_with(family, 0, twice, "XY"), ASPEN_OTHER_BYTES);
        box_free(&fresh);
    }
    box_free(&box);
}

/* A damaged book, in which one of these two blocks has the other's fingerprint too. */
enum { LOWER = 2, HIGHER = 14 };

static void check_lower(const struct family *family, unsigned from, unsigned to)
{
    struct box box = box_with(family, rising);
    char member[2] = "", lower[2] = "", higher[2] = "";

    member[0] = rising[from];
    lower[0] = rising[LOWER];
    higher[0] = rising[HIGHER];
    memcpy(box.book.bytes + case_entry(to) + ENTRY_PRINT,
           box.book.bytes + case_entry(from) + ENTRY_PRINT, ASPEN_PRINT_SIZE);
    CHECK_EQ(call_audit(&box, ASPEN_OK), 0);
    call_backup(&box, 0, 2, list_with(family, MEMBERS, member, higher), ASPEN_OTHER_BYTES);
    CHECK_EQ(call_backup(&box, 0, 2, list_with(family, MEMBERS, member, lower), ASPEN_OK).taken, 0);
    check_block(&box, 2, MEMBERS, LOWER, lower[0]);
    box_free(&box);
}

/* A fingerprint with one bit changed, in any byte, is another one. */
static void test_one_bit(const struct family *family)
{
    unsigned bit;

    for (bit = 0; bit < 8 * ASPEN_PRINT_SIZE; bit++) {
        struct box box = box_with(family, "q");
        struct buffer list = list_with(family, 1, "qq", "qX");

        print_in(&list, 1)[bit / 8] ^= (uint8_t)(1u << bit % 8);
        CHECK_EQ(call_backup(&box, 0, 2, list, ASPEN_OK).taken, 1);
        check_block(&box, 2, 1, 0, 'q');
        check_block(&box, 2, 2, 1, 'X');
        CHECK_EQ(call_audit(&box, ASPEN_OK), 1);
        box_free(&box);
    }
}

void test_alike(void)
{
    static const uint8_t zeros[ASPEN_PRINT_SIZE] = { 0 };
    static const uint8_t salted[ASPEN_PRINT_SIZE] = { 's', 'a', 'l', 't', 4, 5,  6,  7,
                                                      8,   9,   10,  11,  12, 13, 14, 15 };
    static const struct family families[] = {
        { "alike from the far end", salted, FAR_END },
        { "alike from the near end", salted, NEAR_END },
        { "alike with zeros from the far end", zeros, FAR_END },
        { "alike with zeros from the near end", zeros, NEAR_END },
    };
    size_t i;

    for (i = 0; i < sizeof families / sizeof families[0]; i++) {
        const struct family *family = &families[i];

        check_about(family->about);
        check_found(family, rising, rising);
        check_found(family, rising, falling);
        check_found(family, falling, rising);
        check_found(family, falling, falling);
        test_apart(family);
        test_other_bytes(family);
        check_lower(family, LOWER, HIGHER);
        check_lower(family, HIGHER, LOWER);
        if (family->from == FAR_END)
            test_one_bit(family);
    }
}
