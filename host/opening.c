#include "opening.h"

#include "messages.h"
#include "refusals.h"

#include <aspen.h>

static void open_any(struct store *store, const struct request *request, enum lock_use use)
{
    bool wait = request->options[OPTION_NO_WAIT] == NULL;
    uint16_t number = store_open(store, request->words[0], use, wait);

    if (number != 0)
        refuse_store(store, number);
}

static void open_as(struct store *store, const struct request *request, enum lock_use use)
{
    open_any(store, request, use);
    if (store->layout != ASPEN_LAYOUT)
        refuse_layout(store);
}

static void expect_whole(const struct store *store)
{
    if (store->fault != NULL)
        fail(STATUS_STORE,
             "%s is damaged: %s; nothing was written; put back a copy of the store; aspenbox "
             "restore still gives what it can",
             store->book_path, store->fault);
}

void open_to_look(struct store *store, const struct request *request)
{
    open_as(store, request, LOCK_TO_READ);
}

void open_to_read(struct store *store, const struct request *request)
{
    open_as(store, request, LOCK_TO_READ);
    if (store->fault != NULL)
        note("%s is damaged: %s; what it gives may be wrong; put back a copy of the store",
             store->book_path, store->fault);
}

void open_to_write(struct store *store, const struct request *request)
{
    open_as(store, request, LOCK_TO_WRITE);
    expect_whole(store);
}

void open_to_plan(struct store *store, const struct request *request)
{
    open_as(store, request, LOCK_TO_READ);
    expect_whole(store);
}

void open_to_upgrade(struct store *store, const struct request *request)
{
    open_any(store, request, LOCK_TO_WRITE);
    if (store->layout != ASPEN_LAYOUT && store->fault != NULL)
        refuse_layout(store);
    expect_whole(store);
}

int status_of(const struct store *store, int status)
{
    return status == STATUS_DONE && store->fault != NULL ? STATUS_UNSOUND : status;
}
