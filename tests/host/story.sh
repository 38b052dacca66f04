# shellcheck shell=bash disable=SC2034,SC2154
# The therapist's story: back up, restore over the image, edit, back up again. What comes back is the file that was backed up, to
# its last byte.
# Makes `date` the next day.
tomorrow() {
    day=$((day + 1))
    date=$(printf '2026-01-%02d' $day)
}
# tell VOLUME LENGTH: the story of an image of this length in the store
tell() {
    local volume=$1 length=$2 all=$((($2 + 511) / 512))
    tomorrow
    expect 0 "enrolled" enrol "$store" "$volume" --keep 10
    head -c "$length" /dev/urandom >image
    cp image first
    expect 0 "backup 1 of volume $volume on $date: $all of $all blocks sent" backup "$store" "$volume" image --day "$date"
    expect 0 "restored" restore "$store" "$volume" 1 image --force
    check "$store, $length bytes: restored over the image" cmp image first
    if [ "$length" -gt 0 ]; then
        # a byte in the middle, and never by chance the one that is there
        poke image $((length / 2)) "$(printf '%02x' $((0x$(xxd -p -s $((length / 2)) -l 1 image) ^ 255)))"
    else
        printf 'a first word' >image
        all=1
    fi
    cp image second
    tomorrow
    expect 0 "backup 2 of volume $volume on $date: 1 of $all blocks sent, 1 new" backup "$store" "$volume" image --day "$date"
    expect 0 "restored backup 2 of volume $volume to image: $(wc -c <second) bytes" restore "$store" "$volume" 2 image --force
    check "$store, $length bytes: the edited image" cmp image second
    rm -f out
    expect 0 "restored backup 1" restore "$store" "$volume" 1 out
    check "$store, $length bytes: the image before" cmp out first
    tomorrow
    expect 0 "0 of $all blocks sent" backup "$store" "$volume" image --day "$date"
    expect 0 "restored" restore "$store" "$volume" 3 -
    check "$store, $length bytes: on standard output" printed second
}
# tell_all NAME SIZES LENGTH..
tell_all() {
    local volume=0 length sizes=$2
    store=$1
    day=1
    shift 2
    # shellcheck disable=SC2086
    expect 0 "made" format "$store" $sizes --day-zero 2026-01-01
    for length in "$@"; do
        tell $volume "$length"
        volume=$((volume + 1))
    done
    expect 0 "sound" audit "$store"
    expect 0 "0 damaged" scrub "$store"
}
tell_all smallest "--blocks 8 --cells 1 --slots 16 --journal 16" 0 1 511 512
head -c 513 /dev/zero >image
expect 2 "image is longer than the 1 blocks" backup smallest 0 image --day 2026-01-28
tell_all middle "--blocks 300 --cells 64 --slots 32 --journal 400" 0 1 511 512 513 22893 32767 32768
# Here lies the case that found it: with 1,024 cells the restored image had 979 blocks of zeros at its end.
tell_all largest "--blocks 4096 --cells 1024 --slots 1024 --journal 16384" 0 1 511 512 513 22893 524288
rm -r largest

# An image that ends in zeros of its own keeps them, and one of nothing else too.
store=middle
(printf 'word' && head -c 1500 /dev/zero) >image
expect 0 "backup 4" backup middle 5 image --day 2026-01-28
expect 0 "restored" restore middle 5 4 out --force
check "zeros at the end" cmp out image
head -c 700 /dev/zero >image
expect 0 "backup 4" backup middle 6 image --day 2026-01-28
expect 0 "restored" restore middle 6 4 out --force
check "nothing but zeros" cmp out image

# Lengths that go up and down: every older backup has its own.
store=lengths
expect 0 "made" format lengths --blocks 200 --cells 16 --slots 20 --journal 200 --day-zero 2026-01-01
expect 0 "enrolled" enrol lengths 3 --keep 30
expect 0 "enrolled" enrol lengths 4 --keep 30
number=0
for length in 5000 700 8192 0 1 4096 3 8191; do
    number=$((number + 1))
    head -c $length /dev/urandom >"image.$number"
    expect 0 "backup $number" backup lengths 3 "image.$number" --day "2026-01-1$number"
    expect 0 "backup $number" backup lengths 4 image.1 --day "2026-01-1$number"
done
# every_length NUMBER: the backups up to this one
every_length() {
    local i
    for i in $(seq "$1"); do
        expect 0 "restored backup $i of volume 3 to out: $(wc -c <"image.$i") bytes" restore lengths 3 "$i" out --force
        check "backup $i has its own length" cmp out "image.$i"
    done
    expect 0 "restored" restore lengths 4 "$1" out --force
    check "the other volume has its own" cmp out image.1
}
every_length 8
expect 0 "" collect lengths --day 2026-01-19
expect 0 "" enrol lengths 5 --keep 3
every_length 8
expect_json 0 '(o["bytes"], o["blocks"], o["mapped"]) == (700, 2, 2)' restore lengths 3 2 out --force
expect_json 0 '(o["bytes"], o["blocks"], o["mapped"]) == (0, 0, 0)' restore lengths 3 4 out --force

# An older copy of the book put back: the numbers that come again have the lengths that come with them.
cp lengths/book older
for length in 100 200; do
    number=$((number + 1))
    head -c $length /dev/urandom >"image.$number"
    expect 0 "backup $number" backup lengths 3 "image.$number" --day "2026-01-$((11 + number))"
done
cp older lengths/book
number=8
for length in 600 5; do
    number=$((number + 1))
    head -c $length /dev/urandom >"image.$number"
    expect 0 "backup $number" backup lengths 3 "image.$number" --day "2026-01-$((11 + number))"
done
expect 0 "backup 9" backup lengths 4 image.1 --day 2026-01-21
expect 0 "backup 10" backup lengths 4 image.1 --day 2026-01-22
every_length 10

# A store of the first version has no lengths: restore gives the blocks up to the last that was sent.
store=aged
expect 0 "made" format aged --blocks 200 --cells 100 --slots 20 --journal 200 --day-zero 2026-01-01
expect 0 "enrolled" enrol aged 0 --keep 30
expect 0 "enrolled" enrol aged 1 --keep 30
head -c 22893 /dev/urandom >image
expect 0 "45 of 45" backup aged 0 image --day 2026-01-02
: >empty
expect 0 "0 of 0" backup aged 1 empty --day 2026-01-02
age aged
expect 0 "restored backup 1 of volume 0 to out: 23040 bytes, 45 blocks" restore aged 0 1 out --force
check "up to the last block that was sent" cmp out <(cat image && head -c 147 /dev/zero)
expect 0 "restored backup 1 of volume 1 to out: 0 bytes, 0 blocks" restore aged 1 1 out --force
check "nothing where nothing was sent" test ! -s out
# From the next backup on there are lengths, also of an image that is shorter.
head -c 1000 image >shorter
expect 0 "1 of 2" backup aged 0 shorter --day 2026-01-03
expect 0 "restored backup 2 of volume 0 to out: 1000 bytes" restore aged 0 2 out --force
check "the next one has its length" cmp out shorter
expect 0 "restored backup 1 of volume 0 to out: 23040 bytes" restore aged 0 1 out --force
