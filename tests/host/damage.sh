# shellcheck shell=bash disable=SC2034,SC2154
# Damaged stores: named with their number, and never written.
blocks AB >aid
small_store box
expect 0 "backup 1" backup box 0 aid --day-number 1
cp -r box whole
fresh() {
    rm -rf box
    cp -r whole box
}
# all_say STATUS TEXT COMMAND..: each of these commands ends so
all_say() {
    local wanted=$1 text=$2 command
    shift 2
    for command in "$@"; do
        # shellcheck disable=SC2086
        expect "$wanted" "$text" $command
    done
}
changing=("enrol box 2 --keep 3" "backup box 0 aid --day-number 9" "collect box --day-number 9" "scrub box --heal aid" "upgrade box"
    "retire box 0 --day-number 9 --yes" "retire box 0 --day-number 9")
book_only=("audit box" "tally box" "list box" "status box" "book box")
with_pool=("read box 0 1 0" "restore box 0 1 out" "scrub box")

fresh
poke box/book 0 07
all_say 5 "refused 1: box/book is no book: its layout number, length or sizes are wrong; nothing was written" \
    "${changing[@]}" "${book_only[@]}" "${with_pool[@]}"
fresh
truncate -s -1 box/book
all_say 5 "refused 1" "${changing[0]}" "${book_only[0]}" "${with_pool[0]}"
fresh
head -c 300000 /dev/zero >box/book
all_say 5 "refused 1" "${changing[1]}" "${book_only[1]}"
fresh
: >box/book
all_say 5 "refused 1" "${changing[2]}" "${changing[3]}" "${book_only[2]}"
fresh
poke box/book 38 02
all_say 5 "refused 2: box/book is damaged; nothing was written; put back a copy of the store" \
    "${changing[@]}" "${book_only[@]}" "${with_pool[@]}"

# The pool too short and too long. What doesn't take the pool still works.
for change in -1 +1; do
    fresh
    truncate -s $change box/pool
    all_say 5 "refused 3: box/pool has $((2048 + change)) bytes where the book says 2048; nothing was written" \
        "backup box 0 aid --day-number 9" "scrub box --heal aid" "${with_pool[@]}"
    all_say 0 "" "${book_only[@]}" "enrol box 2 --keep 3" "collect box --day-number 9" "retire box 0 --day-number 9 --yes"
done
fresh
rm box/pool
all_say 5 "box is no store: it has no pool; put back a copy of the store" "${with_pool[@]}" "backup box 0 aid --day-number 9" \
    "scrub box --heal aid"
all_say 0 "" "${book_only[@]}"
fresh
rm box/book
all_say 5 "box is no store: it has no book" "${changing[@]}" "${book_only[@]}" "${with_pool[@]}"

# The lock, and what is no store.
fresh
rm box/lock
all_say 5 "box is no store: it has no file lock" "audit box" "collect box --day-number 9"
fresh
for text in "aspenbox 2" "day-zero" ""; do
    echo "$text" >box/lock
    all_say 5 "box/lock is damaged or from another program" "audit box" "collect box --day-number 9"
done
fresh
# A digit of the date or of the identity, by which the text is still in form.
poke box/lock 20 32 31
all_say 5 "box/lock is damaged" "list box" "collect box --day-number 9" "restore box 0 1 out"
fresh
poke box/lock 37 "$(printf '%x' "'$([ "$(dd if=box/lock bs=1 skip=37 count=1 status=none)" = 0 ] && echo 1 || echo 0)")"
all_say 5 "box/lock is damaged" "list box" "collect box --day-number 9" "restore box 0 1 out"
all_say 5 "is no store" "audit none" "audit aid" "backup none 0 aid --day-number 1"
# A line that the digest doesn't know of.
fresh
echo "a fifth line" >>box/lock
all_say 5 "box/lock is damaged" "list box" "collect box --day-number 9"

# The book of another store, sound as it is.
fresh
expect 0 "made" format other --blocks 4 --cells 4 --slots 6 --journal 8 --day-zero 2026-01-01
cp other/book box/book
all_say 5 "box/book is damaged: it is the book of another store; nothing was written" "${changing[@]}"
all_say 1 "it is the book of another store" "${book_only[@]}"

# A book in form that isn't sound: what writes refuses, what reads warns.
fresh
poke box/book 36 05
expect 1 "unsound: its bytes don't fit their digest" audit box
all_say 5 "box/book is damaged: its bytes don't fit their digest; nothing was written; put back a copy of the store" "${changing[@]}"
rm -f out
all_say 1 "box/book is damaged: its bytes don't fit their digest; what it gives may be wrong; put back a copy of the store" \
    "${book_only[@]:1}" "${with_pool[@]}"
check "given all the same" cmp out aid

# Bytes of the pool that changed: scrub names the block and where it is, read and restore tell.
fresh
blocks CB >aid2
blocks B >aid3
expect 0 "1 of 1" backup box 1 aid3 --day-number 1
expect 0 "1 of 2" backup box 0 aid2 --day-number 2
expect 0 "3 held blocks hashed, 0 damaged" scrub box
poke box/pool 5 00
poke box/pool 700 00
expect 1 "3 held blocks hashed, 2 damaged" scrub box
check "a block of an older backup" grep -q '^block 0 is damaged: in older backups only$' "$work/out"
check "a block of two volumes" grep -q '^block 1 is damaged: volume 0 LBN 1, volume 1 LBN 0$' "$work/out"
expect 0 "sound" audit box
expect 1 "don't fit their fingerprint" read box 0 1 0
expect 0 "CCCC" read box 0 2 0
expect 1 "LBN 1 is damaged: its bytes don't fit their fingerprint" restore box 0 2 out --force
check "restored nonetheless" cmp out <(blocks C && dd if=box/pool bs=512 skip=1 count=1 status=none)
# A free block may hold anything.
poke box/pool 1800 41
expect 1 "3 held blocks hashed, 2 damaged" scrub box
