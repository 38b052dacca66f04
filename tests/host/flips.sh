# shellcheck shell=bash disable=SC2034,SC2154
# Bits that changed by themselves: none in book or lock goes unnoticed, and no restore ends with 0 and wrong bytes.

# The story that found it: with the count of a block too low its bytes were given to another volume, and nothing was said.
store=box
expect 0 "made" format box --blocks 20 --cells 16 --slots 8 --journal 60 --day-zero 2026-01-01
expect 0 "enrolled" enrol box 0 --keep 10
expect 0 "enrolled" enrol box 1 --keep 10
blocks ABCDEFGHIJKLMNOP >first
blocks 01234 >second
expect 0 "16 of 16 blocks sent, 16 new" backup box 0 first --day 2026-01-02
cp -r box whole
# flip FILE BYTE BIT
flip() {
    poke "$1" "$2" "$(printf '%02x' $((0x$(xxd -p -s "$2" -l 1 "$1") ^ 1 << $3)))"
}
# unsound FAULT: each command notices the book in box, and volume 0 gets its own bytes back
unsound() {
    expect 5 "box/book is damaged: $1; nothing was written; put back a copy of the store" collect box --day 2026-01-03
    expect 5 "box/book is damaged: $1; nothing was written" backup box 1 second --day 2026-01-03
    expect 5 "box/book is damaged: $1; nothing was written" backup box 0 first --day 2026-01-03
    expect 5 "box/book is damaged: $1; nothing was written" enrol box 2 --keep 3
    expect 5 "box/book is damaged: $1; nothing was written" scrub box --heal first
    expect 1 "box/book is damaged: $1; what it gives may be wrong" scrub box
    expect 1 "box/book is damaged: $1" list box
    expect 1 "box/book is damaged: $1" read box 0 1 3
    expect 1 "box/book is damaged: $1" restore box 0 1 out --force
    check "restored nonetheless" cmp out first
    expect 1 "unsound: $1" audit box
    expect 1 "the book is damaged" status box
}
flip box/book $((36 + entry * 3)) 0
unsound "its bytes don't fit their digest"

# Every bit, one after the other: list, collect, backup and restore. With ASPEN_EVERY set, every so many bits.
every_bit() {
    local memory line
    store=small
    expect 0 "made" format small --blocks 2 --cells 1 --slots 3 --journal 2 --day-zero 2026-01-01
    expect 0 "enrolled" enrol small 0 --keep 10
    expect 0 "enrolled" enrol small 1 --keep 10
    head -c 500 /dev/urandom >image
    expect 0 "1 of 1" backup small 0 image --day 2026-01-02
    # In memory, where that is to be had: the program syncs its files at every call.
    memory=$(mktemp -d -p /dev/shm 2>/dev/null || mktemp -d)
    while IFS= read -r line; do
        if [ "${line%% *}" = good ]; then pass; else complain "$line"; fi
    done < <(python3 "$here/flips.py" "$program" small image "$memory" "${ASPEN_EVERY:-1}" 2>&1)
    rm -rf "$memory"
    store=box
}
if command -v python3 >/dev/null; then
    every_bit
else
    echo "not run: every bit of a store flipped (no python3)"
fi

# A store of the first version has no digest: its book is audited all the same.
rm -r box
cp -r whole box
age box
check "a lock of three lines" same "$(wc -l <box/lock)" 3
flip box/book $((36 + entry * 3)) 0
unsound "maps, counts or days don't agree with the journal"
# A whole one is taken, and has its digest after the next write.
rm -r box
cp -r whole box
age box
cp -r box aged
expect 0 "sound" audit box
expect 0 "restored" restore box 0 1 out --force
check "restored from the first version" cmp out first
check "what only reads leaves it as it was" diff -r aged box
# first_write CALL..
first_write() {
    rm -r box
    cp -r aged box
    expect 0 "" "$@"
    check "$1 leaves a digest" same "$(tail -c 40 box/book | head -c 8)" aspnseal
    expect 0 "sound" audit box
    flip box/book $((36 + entry * 3)) 0
    expect 1 "don't fit their digest" list box
}
first_write collect box --day 2026-01-03
first_write enrol box 2 --keep 3
first_write backup box 1 first --day 2026-01-03
# Its lock has no digest of its own, but the book now knows the store. Another digit there is another identity.
rm -r box
cp -r aged box
expect 0 "" collect box --day 2026-01-03
case $(head -c 41 box/lock | tail -c 1) in
0) poke box/lock 40 31 ;;
*) poke box/lock 40 30 ;;
esac
expect 5 "it is the book of another store" collect box --day 2026-01-03
