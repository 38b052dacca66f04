# shellcheck shell=bash disable=SC2034,SC2154
# What a backup sends is what the image differs in from the volume's newest backup: nothing but the store decides it.
store=box
expect 0 "made" format box --blocks 32 --cells 8 --slots 40 --journal 48 --day-zero 2026-01-01
expect 0 "enrolled" enrol box 0 --keep 10
expect 0 "enrolled" enrol box 1 --keep 10
blocks ABCDEFGH >image
day=0
# The date of a day: date_of DAY
date_of() {
    printf '2026-01-%02d' $(($1 + 1))
}
# sends NUMBER IMAGE: the next backup of volume 0 sends so many blocks, and says nothing else
sends() {
    day=$((day + 1))
    expect 0 "$1 of 8 blocks sent" backup box 0 "$2" --day "$(date_of $day)"
    check "one line" same "$(cat "$work/out" "$work/err" | wc -l)" 1
}
sends 8 image
sends 0 image
blocks ABXDEFGY >image
sends 2 image

# An unchanged image takes no record, wherever it lies and whatever lies beside it: 20 times eight would fill this journal.
for i in $(seq 20); do
    cp image "image.$i"
    sends 0 "image.$i"
done
expect 0 "0 of 8 blocks sent" backup box 0 image --day "$(date_of $((day + 1)))"
day=$((day + 1))
expect 0 '"journal":{"used":10,' status box --json

# Another volume's blocks are another matter, and take no room in the pool.
expect 0 "8 of 8 blocks sent, 0 new" backup box 1 image --day "$(date_of $day)"
sends 0 image

# An older copy of the store, whose numbers have gone on since.
rm -rf copy
cp -r box copy
blocks ZBXDEFGY >image
sends 1 image
rm -r box
mv copy box
blocks ABXDEFGZ >image
day=$((day - 1))
sends 1 image
blocks ZBXDEFGY >image
sends 2 image
newest=$(awk '/^backup/ { print $2 }' "$work/out")
expect 0 "restored" restore box 0 "$newest" back
check "all of the image is in the backup" cmp image back
# Back to what an older backup had: the blocks are there.
blocks ABCDEFGH >image
expect 0 "3 of 8 blocks sent, 0 new" backup box 0 image --day "$(date_of $((day + 1)))"
check "no temporary file is left" same "$(find . -name '*.new*')" ""
check "nothing lies beside the images" same "$(find . -name '*.aspen')" ""

# Changed blocks in a row go to the box in runs of 64 blocks at most, which a user never sees: rows shorter than a run, as long as
# one, longer, and up to the image's end are sent, and every backup restores to its own image.
store=rows
expect 0 "made" format rows --blocks 900 --cells 300 --slots 10 --journal 900 --day-zero 2026-01-01
expect 0 "enrolled" enrol rows 0 --keep 30
head -c $((512 * 300)) /dev/urandom >image.1
expect 0 "300 of 300 blocks sent, 300 new" backup rows 0 image.1 --day "$(date_of 1)"
number=1
# Where a row starts and how many blocks it has.
for row in 20:63 20:64 20:65 7:128 7:129 235:65; do
    first=${row%:*} changed=${row#*:}
    number=$((number + 1))
    cp image.$((number - 1)) image.$number
    head -c $((512 * changed)) /dev/urandom | dd of=image.$number bs=512 seek="$first" conv=notrunc status=none
    expect 0 "$changed of 300 blocks sent, $changed new" backup rows 0 image.$number --day "$(date_of $number)"
done
for i in $(seq $number); do
    expect 0 "restored" restore rows 0 "$i" out --force
    check "backup $i of rows" cmp out "image.$i"
done
expect 0 "sound" audit rows
