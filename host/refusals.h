/* The numbers of refusal in words, each with what to do. All of these end the program. */
#ifndef ASPENBOX_REFUSALS_H
#define ASPENBOX_REFUSALS_H

#include "store.h"

/* What was asked of the box; a call fills in what it has. */
struct asked {
    const struct store *store;
    uint16_t volume, day, changes; /* for backup, retire and collect */
    bool retiring;                 /* for retire */
    uint16_t number, lbn;          /* for read, and for restore with the first LBN */
};

/* 1, 2, 3: the store itself is at fault. */
_Noreturn void refuse_store(const struct store *store, uint16_t number);
/* A book of an older layout, which only an upgrade takes. */
_Noreturn void refuse_layout(const struct store *store);
/* 1 of format. */
_Noreturn void refuse_sizes(void);
/* 5, 6 of enrol. */
_Noreturn void refuse_enrol(const struct store *store, uint16_t number, uint16_t volume,
                            uint16_t keep);
/* The numbers of all other calls. */
_Noreturn void refuse(uint16_t number, const struct asked *asked);

#endif
