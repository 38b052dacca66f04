/* Which block of the pool a backup has at each LBN of a run.
 *
 * A restore gives the bytes of a run and doesn't say where they stood, but each block has to be
 * compared with its own fingerprint. So the run is restored once more, from a pool of labels, in
 * which block p has the number p: of a pool the library looks at nothing but the length. */
#ifndef ASPENBOX_RUNS_H
#define ASPENBOX_RUNS_H

#include "refusals.h"

#include <stdbool.h>

/* A row for each of so many LBNs from asked->lbn on, as view_cell reads them. `all` says that the
 * backup has a block at each of them; else those that it has are looked for. The caller has seen
 * that the library refuses the run for nothing else. `labels` is as long as the pool and is written
 * over. */
struct bytes runs_places(const struct asked *asked, struct bytes labels, uint16_t length, bool all);

#endif
