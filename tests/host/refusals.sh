# shellcheck shell=bash disable=SC2034,SC2154
# Every refusal that the command line can bring about, with what to do. `expect` sees that none changes the store.
small_store box
# Images, named by their blocks.
for letters in A B E AB BCA ABCC ABCD; do
    # shellcheck disable=SC2094
    blocks $letters >$letters
done
blocks AB >aid
expect 3 "refused 5: volume 0 is enrolled already and keeps its backups 10 days" enrol box 0 --keep 4
expect 3 "refused 5: there is no volume 8; volumes are 0 to 7" enrol box 8 --keep 4
expect 3 "refused 5: volume 2 isn't enrolled; run aspenbox enrol box 2 --keep DAYS first" backup box 2 aid --day-number 1
expect 3 "refused 5: there is no volume 9" backup box 9 aid --day-number 1
expect 3 "refused 5: volume 2 isn't enrolled" read box 2 1 0
expect 3 "refused 5: volume 2 isn't enrolled" restore box 2 1 out
expect 3 "refused 6: backups can't be kept 0 days; give --keep 1 to 5000" enrol box 2 --keep 0
expect 3 "refused 6: backups can't be kept 5001 days" enrol box 2 --keep 5001

expect 0 "backup 1" backup box 0 aid --day-number 5
expect 3 "refused 7: 2026-01-05 is before the box's day, 2026-01-06" backup box 1 aid --day-number 4
expect 3 "refused 7: volume 0 has a backup of 2026-01-06 already; back it up on a later day" backup box 0 aid --day-number 5
expect 3 "refused 7: 2026-01-05 is before the box's day" collect box --day-number 4
expect 3 "refused 7: day 60001 (2190-04-12) is past the last that a book can have, 60000 (2190-04-11)" collect box --day-number 60001 --ahead
expect 2 "2025-12-31 is before day 0 of the store, 2026-01-01; give a later day" collect box --day 2025-12-31
expect 2 "2300-01-01 is more than 65535 days after day 0" collect box --day 2300-01-01 --ahead
expect 2 "--day soon is no date like 2026-01-31, from 1900 to 2999" collect box --day soon
expect 2 "--day-number 99999 is no number from 0 to 65535" collect box --day-number 99999

# 9: six slots. 10: eight records.
for day in 6 7 8 9 10; do
    expect 0 "0 of 2 blocks sent" backup box 0 aid --day-number $day
done
expect 3 "refused 9: all 6 backup slots are used; format a store with more slots" backup box 0 aid --day-number 11
small_store journal
expect 0 "4 of 4" backup journal 0 ABCD --day-number 1
expect 0 "3 of 3" backup journal 0 BCA --day-number 2
expect 3 "refused 10: the journal has 1 of its 8 places left and this backup needs 2; format a store with a larger journal" \
    backup journal 1 AB --day-number 3

# 11, other bytes under a fingerprint that is held, doesn't come about: backup heals such a block first; see healing.sh.

# 12: four blocks. After a collection there is room.
small_store full
expect 0 "4 of 4 blocks sent, 4 new" backup full 0 ABCD --day-number 1
expect 3 "refused 12: no free block; collect, or enlarge the pool" backup full 1 E --day-number 2
expect 0 "1 of 4 blocks sent, 0 new" backup full 0 ABCC --day-number 2
expect 0 "blocks freed: 1" collect full --day-number 13
expect 0 "1 of 1 blocks sent, 1 new" backup full 1 E --day-number 13

# The advice where a size is the largest already: no store has more.
store=largest
expect 0 "made" format largest --blocks 4096 --cells 1024 --slots 64 --journal 16384 --day-zero 2026-01-01
for volume in 0 1 2 3 4; do
    expect 0 "enrolled" enrol largest $volume --keep 10
done
for volume in 0 1 2 3; do
    head -c 524288 /dev/urandom >random
    expect 0 "1024 of 1024 blocks sent, 1024 new" backup largest $volume random --day-number 1
done
expect 3 "refused 12: no free block; collect, or format a second store" backup largest 4 A --day-number 1
check "nothing is said of a larger pool" test "$(grep -c -e enlarge -e "more blocks" "$work/err")" -eq 0
store=longest
expect 0 "made" format longest --blocks 8 --cells 1024 --slots 64 --journal 16384 --day-zero 2026-01-01
expect 0 "enrolled" enrol longest 0 --keep 10
for letters in ABCDEFGH BCDEFGHA; do
    blocks $letters >eight
    for _ in $(seq 128); do cat eight; done >$letters
done
for day in $(seq 1 2 15); do
    expect 0 "1024 of 1024" backup longest 0 ABCDEFGH --day-number "$day"
    expect 0 "1024 of 1024" backup longest 0 BCDEFGHA --day-number $((day + 1))
done
expect 3 "refused 10: the journal has 0 of its 16384 places left and this backup needs 1; format a second store" backup longest 0 A --day-number 17

# 13: a book in form with a count too low, which only damage can bring about. It is noticed before the box is asked.
small_store count
expect 0 "1 of 1" backup count 0 A --day-number 1
age count
poke count/book 36 00
expect 5 "count/book is damaged: maps, counts or days don't agree with the journal; nothing was written" \
    backup count 0 B --day-number 2
expect 1 "unsound" audit count

# 14: the same with a count that can't rise. Of blocks in many cells see blank.sh.
poke count/book 36 ff ff
expect 5 "count/book is damaged: maps, counts or days don't agree with the journal; nothing was written" \
    backup count 1 A --day-number 2
expect 1 "unsound" audit count

store=box
expect 3 "refused 15: volume 0 has backups 1 to 6 and none of number 7" read box 0 7 0
expect 3 "refused 15: volume 0 has backups 1 to 6 and none of number 0" restore box 0 0 out
expect 3 "refused 15: volume 1 has no backup yet" restore box 1 1 out
expect 3 "refused 17: there is no LBN 4; LBNs are 0 to 3" read box 0 1 4
expect 3 "refused 18: backup 1 of volume 0 has no block at LBN 2" read box 0 1 2
expect 0 "collected" collect box --day-number 17
expect 3 "refused 16: backup 1 of volume 0 was kept until 2026-01-16; aspenbox list box 0 shows what still is" read box 0 1 0
expect 3 "refused 16" restore box 0 1 out
check "a refused restore leaves no file" test ! -e out
