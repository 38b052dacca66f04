# shellcheck shell=bash disable=SC2034,SC2154
# Blank pages: eight aids as large as there can be, of equal blocks alone, which are 8,192 references to one block.
store=blank
expect 0 "made" format blank --blocks 4 --cells 1024 --slots 32 --journal 16384 --day-zero 2026-01-01
head -c 524288 /dev/zero >page
for volume in 0 1 2 3 4 5 6 7; do
    expect 0 "enrolled" enrol blank $volume --keep 10
done
new=1
for volume in 0 1 2 3 4 5 6 7; do
    expect 0 "1024 of 1024 blocks sent, $new new in the pool" backup blank $volume page --day-number 1
    new=0
done
# waiting BLOCKS: what tally counts; there are always as many references as cells
waiting() {
    expect 0 "references 8192" tally blank
    check "$1 waiting" grep -qx "waiting $1" "$work/out"
}
# all_whole NUMBER FILE: each aid's backup of this number is this file
all_whole() {
    local volume
    for volume in 0 1 2 3 4 5 6 7; do
        expect 0 "restored" restore blank $volume "$1" out --force
        check "backup $1 of volume $volume" cmp out "$2"
    done
}
waiting 0
all_whole 1 page
expect 0 "1 held blocks hashed, 0 damaged" scrub blank

# Its references go down again one by one. The block waits while a backup needs it, and is freed when none does.
head -c 524288 /dev/zero | tr '\0' A >full
for volume in 0 1 2 3 4 5 6; do
    expect 0 "1024 of 1024 blocks sent" backup blank $volume full --day-number 3
done
waiting 0
expect 0 "1024 of 1024 blocks sent, 0 new" backup blank 7 full --day-number 3
waiting 1
all_whole 1 page
expect 0 "blocks freed: 0" collect blank --day-number 11
expect 0 "restored" restore blank 7 1 out --force
check "on the last day that it is kept" cmp out page
expect 0 "blocks freed: 1" collect blank --day-number 12
waiting 0
expect 3 "refused 16" restore blank 7 1 out --force
all_whole 2 full
expect 0 "sound" audit blank
