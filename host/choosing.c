#include "choosing.h"

#include "view.h"

uint16_t newest_by(struct bytes rows, long day)
{
    uint16_t number = (uint16_t)(rows.length / ASPEN_BACKUP_ROW);

    while (number > 0 && view_backup(rows, number).day > day)
        number--;
    return number;
}

uint16_t newest_kept(struct bytes rows)
{
    uint16_t newest = newest_by(rows, ASPEN_MAX_DAY);

    return newest > 0 && view_backup(rows, newest).kept ? newest : 0;
}
