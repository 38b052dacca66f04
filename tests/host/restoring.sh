# shellcheck shell=bash disable=SC2034,SC2154
# Runs of blocks: volumes that grew and shrank, parts of a volume, LBNs that were never sent, damaged blocks, a book at fault.
store=box
expect 0 "made" format box --blocks 40 --cells 16 --slots 8 --journal 60 --day-zero 2026-01-01
expect 0 "enrolled" enrol box 0 --keep 50
expect 0 "enrolled" enrol box 1 --keep 50
# back_up VOLUME DAY LETTERS
back_up() {
    blocks "$3" >image
    expect 0 "backup" backup "$store" "$1" image --day-number "$2"
}
# Volume 0 grows, shrinks to nothing and comes back; volume 1 has other blocks at the same LBNs in between.
back_up 0 1 ABC
back_up 1 2 XYZXYZ
back_up 0 3 ABDEFGHI
back_up 1 4 ZYX
back_up 0 5 KB
: >image
expect 0 "0 of 0 blocks sent" backup box 0 image --day-number 6
back_up 0 7 ALDEM
# gives NUMBER LETTERS: the whole volume as of a backup
gives() {
    expect 0 "to out: $((512 * ${#2})) bytes, ${#2} blocks" restore "$store" 0 "$1" out --force
    check "backup $1 is $2" cmp out <(blocks "$2" | tr . '\0')
}
# parts NUMBER LBNS LETTERS: some LBNs of it; a dot is one that was never sent
parts() {
    local sent=${3//./}
    expect_json 0 "(o['bytes'], o['blocks'], o['mapped'], o['damaged']) == ($((512 * ${#3})), ${#3}, ${#sent}, [])" \
        restore "$store" 0 "$1" out --force --lbns "$2"
    check "LBNs $2 of backup $1 are $3" cmp out <(blocks "$3" | tr . '\0')
}
gives 1 ABC
gives 2 ABDEFGHI
gives 3 KB
gives 4 ""
gives 5 ALDEM
# What the image didn't reach to any more is still there.
parts 1 0-15 ABC.............
parts 1 1-3 BC.
parts 1 3-9 .......
parts 2 0-7 ABDEFGHI
parts 2 7-8 I.
parts 3 0-15 KBDEFGHI........
parts 4 0-1 KB
parts 5 4-7 MGHI
parts 5 0 A
parts 5 15 .
parts 5 15-15 .
expect 3 "refused 21: there is no LBN 16; LBNs are 0 to 15" restore box 0 5 none --lbns 15-16
expect 3 "refused 21: there is no LBN 16; LBNs are 0 to 15" restore box 0 5 none --lbns 0-16
expect 3 "refused 21: there is no LBN 65535" restore box 0 5 none --lbns 65535
expect_json 3 'o["error"]["refused"] == 21 and o["error"]["status"] == 3' restore box 0 5 none --lbns 3-40
# However senseless the LBNs are, a number or a volume that isn't there comes first.
expect 3 "refused 15" restore box 0 6 none --lbns 0-65535
expect 3 "refused 5" restore box 2 1 none --lbns 0-65535
check "nothing came of what was refused" test ! -e none

# LBNs that were never sent between others: backup 1 is given LBNs 0, 5, 6 and 20, in the book and in its journal. By its
# audit this is a book like any other; no length is noted in it.
store=holes
expect 0 "made" format holes --blocks 48 --cells 32 --slots 8 --journal 80 --day-zero 2026-01-01
expect 0 "enrolled" enrol holes 0 --keep 50
expect 0 "enrolled" enrol holes 1 --keep 50
back_up 0 1 ABCD
age holes
maps=$((36 + entry * 48))
records=$((maps + 16 * 32 + 8 * 8))
# moves RECORD FROM TO: the block of a record, which has its number, goes from one LBN to another
moves() {
    poke holes/book $((records + 6 * $1)) "$(printf '%02x' "$3")"
    poke holes/book $((maps + 2 * $2)) ff ff
    poke holes/book $((maps + 2 * $3)) "$(printf '%02x' "$1")" 00
}
moves 3 3 20
moves 2 2 6
moves 1 1 5
expect 0 "sound" audit holes
hole_parts() {
    parts 1 0-31 A....BC.............D...........
    parts 1 5-6 BC
    parts 1 4-7 .BC.
    parts 1 0 A
    parts 1 1-4 ....
    parts 1 6-20 C.............D
}
gives 1 A....BC.............D
hole_parts
# The same LBNs of an older backup, when all of them have blocks.
blocks ABCDEFGHIJKLMNOPQRSTUVWXYZabcdef >image
expect 0 "31 of 32 blocks sent" backup holes 0 image --day-number 2
gives 1 A....BC.............D
hole_parts
gives 2 ABCDEFGHIJKLMNOPQRSTUVWXYZabcdef

# Damaged blocks are named by their LBNs, also where one is at several, and only those that are asked for.
store=dull
expect 0 "made" format dull --blocks 16 --cells 16 --slots 4 --journal 40 --day-zero 2026-01-01
expect 0 "enrolled" enrol dull 0 --keep 50
back_up 0 1 ABACAB
back_up 0 2 ABACDB
poke dull/pool 3 00
expect 1 "LBN 2 is damaged: its bytes don't fit their fingerprint" restore dull 0 1 out --force
check "and no others" same "$(grep -c "is damaged" "$work/out")" 3
check "restored nonetheless" cmp out <(dd if=dull/pool bs=512 count=1 status=none && blocks B &&
    dd if=dull/pool bs=512 count=1 status=none && blocks C && dd if=dull/pool bs=512 count=1 status=none && blocks B)
expect_json 1 'o["damaged"] == [0, 2, 4] and o["mapped"] == 6' restore dull 0 1 out --force
expect_json 1 'o["damaged"] == [0, 2]' restore dull 0 2 out --force
expect_json 1 'o["damaged"] == [2] and o["mapped"] == 3 and o["blocks"] == 3' restore dull 0 2 out --force --lbns 1-3
expect_json 1 'o["damaged"] == [2] and o["mapped"] == 4 and o["blocks"] == 14' restore dull 0 2 out --force --lbns 2-15
expect_json 0 'o["damaged"] == [] and o["mapped"] == 1' restore dull 0 2 out --force --lbns 3-3

# Of a book at fault nothing is taken on trust: its current map has lost LBN 5, which the journal's older backup has.
store=holes
poke holes/book $((maps + 2 * 5)) ff ff
expect 1 "unsound" audit holes
expect 1 "what it gives may be wrong" restore holes 0 1 out --force --lbns 0-31
check "what the journal has is given" cmp out <(blocks A....BC.............D........... | tr . '\0')
expect 1 "32 blocks" restore holes 0 2 out --force
check "and what the map has" cmp out <(blocks ABCDE.GHIJKLMNOPQRSTUVWXYZabcdef | tr . '\0')

# The largest volume, from the largest pool.
store=large
expect 0 "made" format large --blocks 4096 --cells 1024 --slots 8 --journal 4096 --day-zero 2026-01-01
expect 0 "enrolled" enrol large 7 --keep 50
head -c 524288 /dev/urandom >image.1
cp image.1 image.2
for lbn in 0 63 64 511 1023; do
    blocks Q | dd of=image.2 bs=512 seek=$lbn conv=notrunc status=none
done
cp image.1 image
expect 0 "1024 of 1024" backup large 7 image --day-number 1
cp image.2 image
expect 0 "5 of 1024" backup large 7 image --day-number 2
for number in 1 2; do
    expect 0 "524288 bytes, 1024 blocks" restore large 7 $number out --force
    check "all of backup $number" cmp out image.$number
done
expect 0 "449 blocks" restore large 7 1 out --force --lbns 63-511
check "some hundred blocks of it" cmp out <(dd if=image.1 bs=512 skip=63 count=449 status=none)
