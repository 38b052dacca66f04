/* The six calls that show a book, all of them on any book: aspen_sizes, aspen_used, aspen_volume,
 * aspen_backups, aspen_cells and aspen_blocks. The spare stands for the output: it is as long as the
 * rows, and as much longer as the control says. */
#include "../fuzz.h"

int LLVMFuzzerTestOneInput(const uint8_t *input, size_t length);

enum view { SIZES, USED, VOLUME, BACKUPS, CELLS, BLOCKS, VIEWS };

/* The functions of one side. */
struct calls {
    __typeof__(aspen_sizes) *sizes;
    __typeof__(aspen_used) *used;
    __typeof__(aspen_volume) *volume;
    __typeof__(aspen_backups) *backups;
    __typeof__(aspen_cells) *cells;
    __typeof__(aspen_blocks) *blocks;
};

static const struct calls archive = { aspen_sizes, aspen_used, aspen_volume,
                                      aspen_backups, aspen_cells, aspen_blocks };
static const struct calls reference = { reference_sizes, reference_used, reference_volume,
                                        reference_backups, reference_cells, reference_blocks };

static uint16_t call(const struct calls *calls, enum view view, struct side *side, uint16_t volume,
                     uint16_t a[4])
{
    const struct buffer *book = &side->part[BOOK];
    struct buffer *out = &side->part[SPARE];
    size_t i;

    for (i = 0; i < 4; i++)
        a[i] = UNTOUCHED;
    switch (view) {
    case SIZES:
        return calls->sizes(book->bytes, book->length, &a[0], &a[1], &a[2], &a[3]);
    case USED:
        return calls->used(book->bytes, book->length, &a[0], &a[1], &a[2]);
    case VOLUME:
        return calls->volume(book->bytes, book->length, volume, &a[0], &a[1], &a[2]);
    case BACKUPS:
        return calls->backups(book->bytes, book->length, volume, out->bytes, out->length, &a[0]);
    case CELLS:
        return calls->cells(book->bytes, book->length, volume, out->bytes, out->length);
    default:
        return calls->blocks(book->bytes, book->length, out->bytes, out->length);
    }
}

/* How many bytes the rows have; 0 where the call has none or is refused. */
static size_t rows_length(enum view view, const struct buffer *book, uint16_t volume)
{
    uint16_t blocks = 0, cells = 0, slots, records, retention, backups = 0, retired;

    reference_sizes(book->bytes, book->length, &blocks, &cells, &slots, &records);
    reference_volume(book->bytes, book->length, volume, &retention, &backups, &retired);
    return view == BACKUPS  ? aspen_backups_size(backups)
           : view == CELLS  ? aspen_cells_size(cells)
           : view == BLOCKS ? aspen_blocks_size(blocks)
                            : 0;
}

static void try_view(enum view view, const uint8_t *input, size_t length)
{
    struct control control = control_of(input, length);
    struct sent sent = sent_of(input, length, 'r');
    uint16_t volume = sent.number[0], number, answers[4], expected[4];
    struct side ours, theirs;
    size_t i;

    buffer_free(&sent.part[SPARE]);
    sent.part[SPARE] = buffer_filled(rows_length(view, &sent.part[BOOK], volume), 0xA5);
    make_longer(&sent.part[SPARE], control.longer[SPARE]);
    sent.free = PARTS;
    ours = lent(&sent);
    theirs = lent(&sent);
    number = call(&archive, view, &ours, volume, answers);
    CHECK_EQ(number, call(&reference, view, &theirs, volume, expected));
    for (i = 0; i < 4; i++)
        check_answer(number, answers[i], expected[i], UNTOUCHED);
    check_left(number, &sent, &ours, &theirs);
}

int LLVMFuzzerTestOneInput(const uint8_t *input, size_t length)
{
    int view;

    for (view = SIZES; view < VIEWS; view++)
        try_view((enum view)view, input, length);
    return 0;
}
