# shellcheck shell=bash disable=SC2034,SC2154
# What format makes, and what it leaves alone.
sizes=(--blocks 4 --cells 4 --slots 6 --journal 8)
store=new
expect 0 "made the store new: 4 blocks, volumes of 4 blocks, 6 backups, 8 changes; day 0 is 2026-02-28" \
    format new "${sizes[@]}" --day-zero 2026-02-28
check "book, pool and lock and nothing else" same "$(ls new)" $'book\nlock\npool'
# The book, and behind it the seal.
check "length of the book" same "$(wc -c <new/book)" $((280 + 64))
expect 0 "" book new
check "length of the book alone" same "$(wc -c <"$work/out")" 280
check "the file starts with the book" cmp -n 280 new/book "$work/out"
check "length of the pool" same "$(wc -c <new/pool)" 2048
check "lock" same "$(head -2 new/lock)" $'aspenbox 1\nday-zero 2026-02-28'
check "the lock's last line is the digest of those before it" same "$(tail -1 new/lock)" \
    "digest $(head -3 new/lock | sha256sum | cut -d' ' -f1)"
check "folder for its owner alone" same "$(stat -c %a new)" 700
expect 2 "has a book already" format new "${sizes[@]}"

store=today
expect 0 "day 0 is $(date -u +%F)" format today "${sizes[@]}"
check "two stores differ in identity" test "$(sed -n 3p new/lock)" != "$(sed -n 3p today/lock)"

store=bare
mkdir bare
expect 0 "made the store" format bare "${sizes[@]}"

# A format that was cut off before its book is made again.
rm bare/book
expect 0 "made the store" format bare "${sizes[@]}"

# A store that lost its book isn't.
rm bare/book
poke bare/pool 600 41
expect 2 "has a pool with blocks in it and no book" format bare "${sizes[@]}"
expect 5 "has no book" list bare
rm -r bare
# Nor is a file named pool that is longer than the pool would be.
mkdir bare
head -c 2049 /dev/zero >bare/pool
expect 2 "bare/pool is longer than the pool of this store; format another folder" format bare "${sizes[@]}"
check "the longer file is as it was" same "$(wc -c <bare/pool)" 2049
check "nothing was put beside it" same "$(ls bare)" pool
rm -r bare
mkdir bare
echo mine >bare/lock
expect 2 "is a file of something else" format bare "${sizes[@]}"

store=none
expect 3 "refused 1: there is no store of these sizes; give --blocks 1 to 4096" format none --blocks 4097 --cells 4 --slots 6 --journal 8
expect 3 "refused 1" format none --blocks 4 --cells 1025 --slots 6 --journal 8
expect 3 "refused 1" format none --blocks 4 --cells 4 --slots 0 --journal 8
expect 3 "refused 1" format none --blocks 4 --cells 4 --slots 6 --journal 16385
expect 2 "--blocks 65536 is no number" format none --blocks 65536 --cells 4 --slots 6 --journal 8
for date in 2026-02-29 2100-02-29 2026-13-01 2026-00-01 2026-04-31 2026-01-00 1899-12-31 26-01-01 2026-1-1 2026-01-011; do
    expect 2 "--day-zero $date is no date" format none "${sizes[@]}" --day-zero $date
done
check "nothing was made" test ! -e none
touch file
expect 4 "Not a directory" format file "${sizes[@]}"
expect 4 "can't make the folder" format deep/er "${sizes[@]}"
# Over the ends of February and of years, with and without a leap day.
for pair in 2024-02-28:2024-02-29 2000-02-28:2000-02-29 2100-02-28:2100-03-01 2026-12-31:2027-01-01 2028-12-31:2029-01-01; do
    store=${pair%:*}
    expect 0 "day 0 is ${pair%:*}" format "$store" "${sizes[@]}" --day-zero "${pair%:*}"
    expect 0 "as of ${pair#*:};" collect "$store" --day-number 1 --ahead
    expect 0 "as of ${pair#*:};" collect "$store" --day "${pair#*:}" --ahead
done
store=largest
expect 0 "made the store" format largest --blocks 4096 --cells 1024 --slots 1024 --journal 16384
check "length of the largest book" same "$(wc -c <largest/book)" $((208932 + 64))
rm -r largest
