/* The command read: one block. */
#include "answer.h"
#include "commands.h"
#include "json.h"
#include "messages.h"
#include "opening.h"
#include "prints.h"
#include "refusals.h"
#include "view.h"

#include <aspen.h>

static void show(const struct asked *asked, uint32_t at, bool whole)
{
    const uint8_t *block = asked->store->pool.at + at;

    if (!messages_json()) {
        answer_add(block, ASPEN_BLOCK_SIZE);
        return;
    }
    json_start();
    json_number("volume", asked->volume);
    json_number("number", asked->number);
    json_number("lbn", asked->lbn);
    json_number("block", at / ASPEN_BLOCK_SIZE);
    json_bool("damaged", !whole);
    json_hex("bytes", block, ASPEN_BLOCK_SIZE);
    notes_to_json();
    json_send();
}

int run_read(const struct request *request)
{
    struct store store;
    struct asked asked = {.store = &store, .volume = read_number("VOLUME", request->words[1])};
    struct bytes blocks;
    uint32_t at = 0;
    uint16_t refusal;
    bool whole;
    int status;

    asked.number = read_number("NUMBER", request->words[2]);
    asked.lbn = read_number("LBN", request->words[3]);
    open_to_read(&store, request);
    store_load_pool(&store);
    refusal = aspen_read(store.book.at, store.book.length, store.pool.at, store.pool.length,
                         asked.volume, asked.number, asked.lbn, &at);
    if (refusal != ASPEN_OK)
        refuse(refusal, &asked);
    blocks = view_blocks(store.book);
    whole = print_fits(store.pool.at + at, view_print(blocks, (uint16_t)(at / ASPEN_BLOCK_SIZE)));
    if (!whole)
        note("the bytes of this block don't fit their fingerprint: the pool is damaged");
    show(&asked, at, whole);
    status = status_of(&store, whole ? STATUS_DONE : STATUS_UNSOUND);
    bytes_free(&blocks);
    store_close(&store);
    return status;
}
