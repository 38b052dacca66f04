# shellcheck shell=bash disable=SC2034,SC2154
# Backups, collections and what is sent, by the cases of documents 01 and 02.
small_store cases
blocks AB >aid0
expect 0 "backup 1 of volume 0 on 2026-01-06: 2 of 2 blocks sent, 2 new in the pool" backup cases 0 aid0 --day-number 5
blocks xxxA >aid1
# LBN 0 to 2 of this aid are one block.
expect 0 "backup 1 of volume 1 on 2026-01-07: 4 of 4 blocks sent, 1 new in the pool" backup cases 1 aid1 --day 2026-01-07
blocks CB >aid0
expect 0 "backup 2 of volume 0 on 2026-01-09: 1 of 2 blocks sent, 1 new in the pool" backup cases 0 aid0 --day-number 8
blocks xxxB >aid1
expect 0 "backup 2 of volume 1 on 2026-01-10: 1 of 4 blocks sent, 0 new in the pool" backup cases 1 aid1 --day-number 9
expect 0 "sound" audit cases
expect 0 "blocks 4" tally cases
check "page of tally" same "$(cat "$work/out")" $'blocks 4\nheld 4\nfree 0\nwaiting 1\nreferences 6'
expect 0 "collected as of 2026-01-16; blocks freed: 0" collect cases --day-number 15
expect 0 "AAAA" read cases 0 1 0
expect 0 "collected as of 2026-01-19; blocks freed: 1" collect cases --day-number 18
expect 3 "refused 16: backup 1 of volume 0 was kept until 2026-01-16" read cases 0 1 0
expect 3 "refused 16: backup 1 of volume 1 was kept until 2026-01-10" read cases 1 1 3
expect 0 "collected as of 2026-01-20; blocks freed: 0" collect cases --day 2026-01-20
expect 0 "0 damaged" scrub cases
check "no temporary file is left" same "$(ls cases)" $'book\nlock\npool'
check "nothing lies beside the images" same "$(find . -maxdepth 1 -name 'aid*' | sort)" $'./aid0\n./aid1'

# Today's date is the default day.
store=today
expect 0 "made" format today --blocks 8 --cells 4 --slots 6 --journal 8 --day-zero 2020-01-01
expect 0 "enrolled" enrol today 0 --keep 10
expect 0 "on $(date -u +%F)" backup today 0 aid0
expect 0 "as of $(date -u +%F)" collect today

# Images: none, empty, with a short last block, as long as the volume, longer.
small_store sizes
expect 2 "can't open none: No such file" backup sizes 0 none --day-number 1
: >empty
expect 0 "0 of 0 blocks sent" backup sizes 0 empty --day-number 1
printf 'abc' >short
expect 0 "1 of 1 blocks sent, 1 new" backup sizes 0 short --day-number 2
expect 0 "restored" restore sizes 0 2 short.out
check "a short image comes back as it was" cmp short.out short
expect 0 "" read sizes 0 2 0
check "its block is filled up with zeros" printed <(printf 'abc' && head -c 509 /dev/zero)
blocks ABCD >full
printf x >>full
expect 2 "full is longer than the 4 blocks of 512 bytes" backup sizes 0 full --day-number 3
expect 2 "sizes is a folder; name a file" backup sizes 0 sizes --day-number 3
head -c $((524288 + 1)) /dev/zero >over
expect 2 "over is longer than a volume can be, 524288 bytes" backup sizes 0 over --day-number 3
# A shorter image leaves what the volume had past its end.
small_store shrink
blocks ABC >image
expect 0 "3 of 3" backup shrink 0 image --day-number 1
blocks D >image
expect 0 "1 of 1 blocks sent, 1 new" backup shrink 0 image --day-number 2
expect 0 "restored" restore shrink 0 2 shrink.out
check "the shorter image" cmp shrink.out image
expect 0 "restored" restore shrink 0 2 shrink.blocks --lbns 0-3
check "blocks past the image's end stay" cmp shrink.blocks <(blocks DBC && head -c 512 /dev/zero)

# An image from standard input, also through a pipe that gives it in pieces.
small_store piped
blocks ABC >image
input=image
expect 0 "3 of 3 blocks sent, 3 new" backup piped 0 - --day-number 1
input=/dev/null
mkfifo pipe
(head -c 700 image && sleep 0.2 && tail -c +701 image) >pipe &
input=pipe
expect 0 "0 of 3 blocks sent, 0 new" backup piped 0 - --day-number 2
wait
input=/dev/null

# After a pause longer than the days of its volume the backup before is past them as soon as it isn't the newest any more.
small_store pause
blocks AB >aid
expect 0 "backup 1" backup pause 0 aid --day-number 5
expect 0 "backup 2" backup pause 0 aid --day-number 15
check "on the last of its days it is kept" test ! -s "$work/err"
expect 0 "restored" restore pause 0 1 out --force
expect 0 "collected" collect pause --day-number 39
expect 0 "restored" restore pause 0 2 out --force
expect 0 "note: backup 2, of 2026-01-16, isn't the newest any more and can't be read: it was kept until 2026-01-26" \
    backup pause 0 aid --day-number 40
expect 3 "refused 16: backup 2 of volume 0 was kept until 2026-01-26" restore pause 0 2 out --force
expect_json 0 'o["number"] == 4 and o["notes"] == ["backup 3, of 2026-02-10, isn'"'"'t the newest any more and can'"'"'t be read: it was kept until 2026-02-20"]' \
    backup pause 0 aid --day-number 51
