# shellcheck shell=bash disable=SC2034,SC2154
# upgrade: a store of layout 1 or 2, as an earlier aspenbox left it (layout1/make, layout2/make), becomes one of layout 3. It loses
# no backup that is kept from its own day on, and says before which others it ends.
# shellcheck source-path=SCRIPTDIR source=images.sh
. "$here/images.sh"
store=box
# from LAYOUT: the store to start from
from() {
    layout=$1
    old=$here/layout$layout
    fresh
}
fresh() {
    rm -rf box
    cp -r "$old/box" box
}
# layout_is LAYOUT
layout_is() {
    check "layout $1" same "$(xxd -p -l 2 box/book)" "0${1}00"
}
only_its_files() {
    check "book, pool and lock and nothing else" same "$(ls box)" $'book\nlock\npool'
}
# What the program says of the store is what the earlier one said, but for the days until which backups are kept.
says_the_same() {
    local command
    for command in audit tally scrub; do
        expect 0 "" $command box
        check "$command as recorded" printed "$old/said.$command"
    done
    expect 0 "" list box
    check "list by the backups' own days" printed "$old/upgraded.list"
    expect 0 "" status box --warn 100
    check "status as recorded" same "$(sed 's/, [0-9]* days ago$//' "$work/out")" "$(cat "$old/said.status")"
}
# Every backup that is kept restores to its image, and of every other it is said until when it was kept.
reads_all() {
    local volume day letters length becomes number numbers=(0 0 0 0 0)
    while read -r volume day letters length becomes <&3; do
        number=$((numbers[volume] += 1))
        if [ "$becomes" = stays ]; then
            image "$letters" "$length" >wanted
            expect 0 "restored" restore box "$volume" $number out --force
            check "backup $number of volume $volume" cmp out wanted
            rm out
        else
            expect 3 "refused 16: backup $number of volume $volume was kept until $(until_of "$volume" "$day"); aspenbox list" \
                restore box "$volume" $number out
        fi
    done 3<"$old/backups"
    check "all backups" same "${numbers[*]}" "$([ "$layout" = 1 ] && echo "3 3 1 0 0" || echo "5 2 2 3 1")"
}
keeps=(10 3 5 20 5)
# until_of VOLUME DAY: the date of the last day on which a backup of this day is kept
until_of() {
    date -u -d "2026-01-01 +$(($2 + keeps[$1])) days" +%F
}
# The notes about the backups that end, by volume.
ending() {
    local volume day letters length becomes numbers=(0 0 0 0 0)
    while read -r volume day letters length becomes; do
        numbers[volume]=$((numbers[volume] + 1))
        [ "$becomes" != ends ] || echo "aspenbox: note: backup ${numbers[volume]} of volume $volume, of" \
            "$(date -u -d "2026-01-01 +$day days" +%F), is past its days in layout 3: it was kept until $(until_of "$volume" "$day")"
    done <"$old/backups" | sort
}

# ---- until then, every other command says which layout it is, and does nothing

image ABXDYF 2900 >aid
others=("enrol box 6 --keep 3" "backup box 0 aid --day-number 40" "collect box --day-number 40" "scrub box --heal aid" "scrub box"
    "retire box 0 --day-number 40 --yes" "retire box 0 --day-number 40" "read box 0 3 0" "restore box 0 3 out" "list box" "status box" "audit box" "tally box" "book box")
for first in 1 2; do
    from $first
    layout_is "$layout"
    for command in "${others[@]}"; do
        # shellcheck disable=SC2086
        expect 5 "refused 1: box/book has layout $layout and this aspenbox takes layout 3; nothing was written; run aspenbox upgrade box first" $command
        check "and gives nothing" test ! -s "$work/out"
    done
    check "no file came of it" test ! -e out
    expect_json 5 'o["error"]["refused"] == 1 and "run aspenbox upgrade box first" in o["error"]["message"]' list box
done

# ---- backups that could be read until now are named, and end only with --force

for first in 1 2; do
    from $first
    many=$([ "$layout" = 1 ] && echo "1 backup" || echo "3 backups")
    expect 2 "the upgrade of box ends $many that can be read now; nothing was written; restore what is still wanted with the aspenbox that made the store, and then give --force" upgrade box
    check "which these are" same "$(grep note: "$work/err" | sort)" "$(ending)"
    check "the store as it was" diff -r box "$old/box"
    expect_json 2 "o['error']['status'] == 2 and len(o['notes']) == ${many%% *} and 'backup' in o['notes'][0]" upgrade box
    expect 0 "upgraded box from layout $layout to layout 3" upgrade box --force
    check "they are named again" same "$(grep note: "$work/err" | sort)" "$(ending)"
done

# ---- upgrade

for first in 1 2; do
    from $first
    chmod 640 box/book
    expect 0 "upgraded box from layout $layout to layout 3" upgrade box --force
    layout_is 3
    only_its_files
    check "the pool as it was" cmp box/pool "$old/box/pool"
    check "the lock as it was" cmp box/lock "$old/box/lock"
    check "the book's mode as it was" same "$(stat -c %a box/book)" 640
    check "an entry of layout 1 has a byte more, the rest is as long as it was" same "$(wc -c <box/book)" \
        $(($(wc -c <"$old/box/book") + (layout == 1 ? 16 : 0)))
    says_the_same
    reads_all
    # A second time nothing is done.
    stat box box/* >stamps
    expect 0 "box has layout 3 already" upgrade box
    check "not a file was touched" same "$(stat box box/*)" "$(cat stamps)"
    fresh
    expect_json 0 "o['notes'] and {k: o[k] for k in o if k != 'notes'} == {'store': 'box', 'from': $layout, 'to': 3}" upgrade box --force
    expect_json 0 'o == {"store": "box", "from": 3, "to": 3}' upgrade box
    # What is past its days now is freed by the next collection, and nothing that is kept.
    expect 0 "blocks freed: $([ "$layout" = 1 ] && echo 2 || echo 6)" collect box --day-number 30
    expect 0 "sound" audit box
    reads_all
done

# Where no backup ends, --force isn't asked for: a day later the one that did is past its days by the rule of layout 1 as well. A
# book without a seal can have another day.
bare() {
    from 1
    head -c $((36 + 20 * 16 + 16 * 300 + 8 * 10 + 6 * 400)) "$old/box/book" >box/book
    head -3 "$old/box/lock" >box/lock
}
bare
poke box/book 14 1f 00
expect 0 "upgraded box from layout 1 to layout 3" upgrade box
check "and there is nothing to note" test ! -s "$work/err"

# It goes on: one block is in 255 cells already, and where layout 1 had no room for more it is in 300 then.
from 1
expect 0 "upgraded" upgrade box --force
head -c 153600 /dev/zero >blank
expect 0 "backup 2 of volume 2 on 2026-02-01: 45 of 300 blocks sent, 0 new" backup box 2 blank --day-number 31
expect 0 "references 310" tally box
expect 0 "restored" restore box 2 2 out
check "300 blank blocks" cmp out blank
rm out
expect 0 "sound" audit box
expect 0 "collected" collect box --day-number 35
expect 0 "sound" audit box

# ---- what an upgrade that was cut off leaves

for first in 1 2; do
    from $first
    cp box/book "box/book.$layout"
    head -c 100 box/book >box/book.new
    expect 0 "upgraded box from layout $layout to layout 3" upgrade box --force
    only_its_files
    cp "$old/box/book" "box/book.$layout"
    expect 2 "box/book.$layout is a file of a store" restore box 0 3 "box/book.$layout" --force
    expect 0 "box has layout 3 already" upgrade box
    check "what was left is named" grep -q "note: removed the old book that an upgrade which was cut off had left" "$work/err"
    only_its_files
    reads_all
    # A folder of that name is no old book.
    fresh
    mkdir "box/book.$layout"
    expect 4 "can't replace box/book.$layout: Is a directory" upgrade box --force
    rmdir "box/book.$layout"
    check "the store as it was" diff -r box "$old/box"
    mkdir box/book.new
    expect 4 "the folder box/book.new is in the way; remove it" upgrade box --force
    rmdir box/book.new
    check "the store as it was" diff -r box "$old/box"
done

# The version that brought layout 2 may have left one of layout 1.
from 2
cp "$here/layout1/box/book" box/book.1
expect 0 "upgraded box from layout 2 to layout 3" upgrade box --force
only_its_files

# ---- a store of the first version: layout 1, no seal, a lock of three lines

bare
expect 5 "run aspenbox upgrade box first" restore box 0 3 out
expect 0 "upgraded box from layout 1 to layout 3" upgrade box --force
check "it has a digest now" same "$(tail -c 40 box/book | head -c 8)" aspnseal
check "the lock has three lines still" same "$(wc -l <box/lock)" 3
says_the_same
# No length was noted: the last block comes whole, and is a block that was filled up with zeros.
expect 0 "restored" restore box 0 3 out
check "up to the last block that was sent" cmp out <(image ABXDYF 2900 && head -c 172 /dev/zero)
rm out

# ---- damaged books

# all_say TEXT: upgrade and some others end with 5 and this text
all_say() {
    local command
    for command in "upgrade box" "upgrade box --force" "${others[@]:0:8}"; do
        # shellcheck disable=SC2086
        expect 5 "$1" $command
    done
    check "no file came of it" test ! -e out
}
for first in 1 2; do
    from $first
    poke box/book 36 05
    all_say "box/book is damaged: its bytes don't fit their digest; nothing was written; put back a copy of the store; its layout is $layout"
    # An entry's state is behind its count.
    for change in "$((36 + layout)) 02" "18 01"; do
        fresh
        # shellcheck disable=SC2086
        poke box/book $change
        all_say "refused 2: box/book is damaged; nothing was written; put back a copy of the store"
    done
done
bare
poke box/book 36 05
all_say "box/book is damaged: maps, counts or days don't agree with the journal; nothing was written; put back a copy of the store"
expect_json 5 '"don'"'"'t agree with the journal" in o["error"]["message"] and "refused" not in o["error"]' upgrade box
# Days until which blocks are needed are worked out afresh, so a wrong one isn't seen in a book without a digest, and is right then.
bare
poke box/book 38 77
expect 0 "upgraded" upgrade box --force
says_the_same
bare
truncate -s -1 box/book
all_say "refused 1: box/book is no book: its layout number, length or sizes are wrong; nothing was written"
for number in 00 02 03 04 ff; do
    bare
    poke box/book 0 $number
    all_say "refused 1: box/book is no book: its layout number, length or sizes are wrong; nothing was written"
done
: >box/book
all_say "refused 1: box/book is no book"
rm box/book
expect 5 "box is no store: it has no book" upgrade box
for first in 1 2; do
    from $first
    rm -rf other
    expect 0 "made" format other --blocks 16 --cells 300 --slots 10 --journal 400
    cp other/lock box/lock
    all_say "box/book is damaged: it is the book of another store; nothing was written"
done
fresh
poke box/lock 40 00
expect 5 "box/lock is damaged" upgrade box
expect 5 "none is no store" upgrade none
