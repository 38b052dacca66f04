# shellcheck shell=bash disable=SC2034,SC2154
# Every command once, and some refusals: what the slow checkers are given.
small_store box
blocks AB >aid
expect 0 "2 of 2" backup box 0 aid --day-number 1
blocks AC >aid
input=aid
expect 0 '"sent":1,' backup box 0 - --day 2026-01-03 --json
input=/dev/null
expect 0 "BBBB" read box 0 1 1
expect 0 "restored" restore box 0 1 out
check "restored" cmp out <(blocks AB)
expect 0 "restored backup 2" restore box 0 --latest out --force
check "restored" cmp out aid
expect 0 "1 blocks" restore box 0 --date 2026-01-02 - --lbns 1-1
check "one block of it" printed <(blocks B)
expect 0 "4 blocks" restore box 0 1 out --force --lbns 0-3
check "and what was never sent" cmp out <(blocks AB && head -c 1024 /dev/zero)
expect 3 "refused 21" restore box 0 1 out --force --lbns 3-4
expect 0 "takes backup 2" list box
expect 0 "kept_until" list box --json --date 2026-01-02
expect 0 "the book is sound" status box --warn 100
expect 0 '"sound":true' status box --warn 100 --json
expect 1 "aspenbox_sound 1" status box --prometheus --older 3
expect 0 "sound" audit box
expect 0 "held 3" tally box
expect 0 "" book box
check "the book alone" same "$(wc -c <"$work/out")" 280
expect 0 '"book":"' book box --json
poke box/pool 3 00
expect 1 "1 damaged" scrub box
expect 0 "has its bytes back from aid" scrub box --heal aid
poke box/pool 3 00
expect 0 '"healed":1' backup box 1 aid --day-number 2 --json
expect 0 "blocks freed: 1" collect box --day-number 13
expect 2 "give --yes" retire box 1 --day-number 13
expect 0 '"ended":[1]' retire box 1 --day-number 13 --yes --json
expect 3 "refused 5: volume 1 was retired" backup box 1 aid --day-number 14
expect 3 "refused 16" restore box 1 --latest out --force
expect 0 "was retired on 2026-01-14" list box 1
expect 0 "retired on 2026-01-14" status box --warn 100
expect 3 "refused 16" restore box 0 1 out --force
expect 3 "refused 7" backup box 0 aid --day-number 2
expect 2 "later than tomorrow" collect box --day 2126-01-01
expect 0 '"help":' restore --help --json
expect 2 "there is no option" list box --loud
# A lock and books that are damaged, and one of the first version.
cp -r box whole
poke box/lock 40 00
expect 5 "box/lock is damaged" list box
cp whole/lock box/lock
poke box/book 36 05
expect 5 "don't fit their digest" collect box --day-number 13
expect 1 "restored" restore box 0 2 out --force
cp whole/book box/book
age box
expect 0 "sound" audit box
expect 0 "restored" restore box 0 2 out --force
expect 0 "enrolled" enrol box 2 --keep 3
truncate -s -1 box/book
expect 5 '"refused":1,' audit box --json
# Those of older layouts, damaged and whole.
for layout in 1 2; do
    rm -r box
    cp -r "$here/layout$layout/box" box
    poke box/book 36 05
    expect 5 "don't fit their digest" upgrade box
    rm -r box
    cp -r "$here/layout$layout/box" box
    expect 5 "has layout $layout" list box
    expect 2 "that can be read now; nothing was written" upgrade box
    expect 0 "upgraded" upgrade box --force
    cp "$here/layout$layout/box/book" box/book.$layout
    expect 0 '"notes":' upgrade box --json
    expect 0 "restored" restore box 0 --latest out --force
done
