#include "sides.h"
#include "twin.h"

#include <aspen.h>
#include <reference.h>

#define C_TWIN(search) \
    { "C " #search, twin_form, twin_format, twin_enrol, twin_backup_##search, twin_retire, twin_collect, twin_read, twin_restore, twin_audit, \
      twin_convert_1_2, twin_convert_2_1, twin_convert_2_3, twin_write_list }

const struct side sides[SIDES] = {
    [PROVED] = { "proved", aspen_form, aspen_format, aspen_enrol, aspen_backup, aspen_retire, aspen_collect, aspen_read, aspen_restore,
                 aspen_audit, aspen_convert_1_2, aspen_convert_2_1, aspen_convert_2_3, aspen_write_list },
    [C_SCAN] = C_TWIN(scan),
    [C_HASH] = C_TWIN(hash),
    [SECOND] = { "Rust", reference_form, reference_format, reference_enrol, reference_backup, reference_retire, reference_collect,
                 reference_read, reference_restore, reference_audit, reference_convert_1_2, reference_convert_2_1, reference_convert_2_3,
                 reference_write_list },
};
