# shellcheck shell=bash disable=SC2034,SC2154
# An aid leaves: what retire tells before it does it, what it needs, and what is there of a volume afterwards.

# back_up VOLUME DAY LETTERS: the image is then in image.VOLUME.DAY
back_up() {
    blocks "$3" >"image.$1.$2"
    expect 0 "backup" backup "$store" "$1" "image.$1.$2" --day-number "$2"
}
# The notes that were told last, on lines of their own.
notes() {
    sed -n 's/^aspenbox: note: //p' "$work/err"
}
# A store where volume 0 has three backups, and volume 1 shares a block with it.
left_aid() {
    store=$1
    rm -rf "$store"
    expect 0 "made" format "$store" --blocks 8 --cells 4 --slots 8 --journal 20 --day-zero 2026-01-01
    expect 0 "enrolled volume 0" enrol "$store" 0 --keep 10
    expect 0 "enrolled volume 1" enrol "$store" 1 --keep 3
    back_up 0 5 AB
    back_up 0 8 AC
    back_up 1 9 AX
    back_up 0 12 DC
}

# ---- what is told, and that nothing is done without a yes

left_aid box
lost="once volume 0 is retired, backup 1, of 2026-01-06, can't be read any more: its days end on 2026-01-16"
stay="once volume 0 is retired, backups 2 to 3 can be read until their days end: 2 until 2026-01-19, and 3, the newest, until 2026-01-23"
number="once volume 0 is retired, it takes no backup, and its number can't be used for another aid"
expect 2 "retiring volume 0 can't be undone; nothing was written; restore what is still wanted of it, and then give --yes" \
    retire box 0 --day-number 16
check "what it would end" same "$(notes)" "$lost"$'\n'"$stay"$'\n'"$number"
expect_json 2 'o["error"]["status"] == 2 and "--yes" in o["error"]["message"] and len(o["notes"]) == 3' retire box 0 --day-number 16
echo yes >line
input=line
expect 2 "--yes" retire box 0 --day-number 16
input=/dev/null
expect 0 "AAAA" read box 0 1 0

# ---- with a yes: what was told is what list shows

expect 0 "retired volume 0 on 2026-01-17; its last state had 2 blocks" retire box 0 --day-number 16 --yes
check "it tells the same" same "$(notes)" "$lost"$'\n'"$stay"$'\n'"$number"
expect 0 "" list box
cat >wanted <<'END'
the box's day is 2026-01-17
volume 0 was retired on 2026-01-17; its backups are kept 10 days
  number  day         kept until  changed
       1  2026-01-06  2026-01-16        2  no longer kept
       2  2026-01-09  2026-01-19        1
       3  2026-01-13  2026-01-23        1
  restore --latest takes backup 3
volume 1 keeps its backups 3 days
  number  day         kept until  changed
       1  2026-01-10  newest            2
  restore --latest takes backup 1
END
check "list of a retired volume" printed wanted
expect 0 "sound" audit box
expect 0 "0 damaged" scrub box
check "no temporary file is left" same "$(ls box)" $'book\nlock\npool'
expect_json 0 'o["volumes"][0]["retired"] == "2026-01-17" and "retired" not in o["volumes"][1] and o["volumes"][0]["latest_takes"] == 3 and [(b["kept"], b["kept_until"]) for b in o["volumes"][0]["backups"]] == [(False, "2026-01-16"), (True, "2026-01-19"), (True, "2026-01-23")]' \
    list box

# ---- its backups are read as before, until their days end

restores() {
    expect 0 "restored backup $1 of volume $2" restore "$store" "$2" "$1" out --force
    check "backup $1 of volume $2" cmp out "image.$2.$3"
}
expect 3 "refused 16: backup 1 of volume 0 was kept until 2026-01-16" restore box 0 1 out --force
restores 2 0 8
restores 3 0 12
restores 1 1 9
expect 0 "CCCC" read box 0 3 1
expect 0 "restored backup 3" restore box 0 --latest out --force
expect 0 "restored backup 2" restore box 0 --date 2026-01-10 out --force
# The map of a retired volume is empty, and yet its backups have blocks at some LBNs and none at others.
expect 0 "restored backup 2" restore box 0 2 out --force --lbns 0-3
check "blocks with none after them" cmp out <(blocks AC && head -c 1024 /dev/zero)
cp -r box first
age first
expect 0 "restored backup 3" restore first 0 3 out --force
check "without a length: up to the last block" cmp out image.0.12
expect 3 "refused 15: volume 0 has backups 1 to 3 and none of number 4" read box 0 4 0

# ---- no way back

expect 3 "refused 5: volume 0 was retired on 2026-01-17 and takes no backup any more; another aid needs another volume" \
    backup box 0 image.0.12 --day-number 20
expect 3 "refused 5: volume 0 was retired on 2026-01-17 and can't be enrolled again; take another" enrol box 0 --keep 10
expect 3 "refused 5: volume 0 was retired on 2026-01-17" retire box 0 --day-number 20 --yes
expect 3 "refused 5: volume 0 was retired on 2026-01-17" retire box 0 --day-number 20
expect_json 3 'o["error"]["refused"] == 5 and "retired on 2026-01-17" in o["error"]["message"]' backup box 0 image.0.12 --day-number 20
expect 3 "refused 5: volume 2 isn't enrolled" retire box 2 --yes --day-number 20
expect 3 "refused 5: there is no volume 8" retire box 8 --yes --day-number 20

# ---- the days of its last backups end; the other aid's go on

expect 0 "blocks freed: 1" collect box --day-number 19
restores 3 0 12
expect 0 "blocks freed: 2" collect box --day-number 23
expect 3 "refused 16: backup 3 of volume 0 was kept until 2026-01-23" restore box 0 3 out --force
expect 3 "refused 16: volume 0 was retired on 2026-01-17 and no backup of it is kept any more; the newest was until 2026-01-23" \
    restore box 0 --latest out --force
expect 0 "  restore --latest takes none: no backup is kept any more" list box 0
expect_json 0 'o["volumes"][0]["latest_takes"] is None' list box 0
restores 1 1 9
back_up 1 25 AXY
expect 0 "held 3" tally box

# ---- an idle aid's newest backup is past its days, and ends at once

small_store idle
blocks AB >aid
expect 0 "backup 1" backup idle 1 aid --day-number 2
expect 0 "collected" collect idle --day-number 20
expect 0 "AAAA" read idle 1 1 0
told="once volume 1 is retired, backup 1, of 2026-01-03, can't be read any more: its days end on 2026-01-06"
expect_json 0 'o == {"volume": 1, "day": 20, "date": "2026-01-21", "cells": 2, "ended": [1], "kept": [], "notes": ["'"$told"'", "once volume 1 is retired, no backup of it can be read", "once volume 1 is retired, it takes no backup, and its number can'"'"'t be used for another aid"]}' \
    retire idle 1 --day-number 20 --yes
expect 3 "refused 16: backup 1 of volume 1 was kept until 2026-01-06" read idle 1 1 0
expect 0 "blocks freed: 2" collect idle --day-number 20

# On the last of its days it stays, and on the next one not.
small_store edge
expect 0 "backup 1" backup edge 1 aid --day-number 2
expect 2 "note: once volume 1 is retired, backup 1, the newest, can be read until 2026-01-06" retire edge 1 --day-number 5
expect 2 "note: $told" retire edge 1 --day-number 6
expect_json 0 'o["ended"] == [] and o["kept"] == [{"number": 1, "kept_until": "2026-01-06"}]' retire edge 1 --day-number 5 --yes
expect 0 "AAAA" read edge 1 1 0
expect 0 "blocks freed: 0" collect edge --day-number 5
expect 0 "blocks freed: 2" collect edge --day-number 6

# ---- a volume without backups

small_store empty
expect 0 "retired volume 0 on 2026-01-04; its last state had 0 blocks" retire empty 0 --day-number 3 --yes
check "there is nothing to end" same "$(notes)" "volume 0 has no backup"$'\n'"$number"
expect 0 "" list empty 0
check "list of it" printed <(printf '%s\n' "the box's day is 2026-01-04" "volume 0 was retired on 2026-01-04; its backups are kept 10 days" "  no backup")
expect 0 "volume 0: retired on 2026-01-04, no backup" status empty
expect 3 "refused 15: volume 0 was retired without a backup" restore empty 0 --latest out --force

# ---- days that aren't taken, and no room

left_aid days
expect 3 "refused 7: volume 0 has a backup of 2026-01-13 already; retire it on a later day" retire days 0 --day-number 12 --yes
expect 3 "refused 7: 2026-01-12 is before the box's day, 2026-01-13" retire days 0 --day-number 11 --yes
expect 3 "refused 7: 2026-01-12 is before the box's day" retire days 0 --day-number 11
expect 3 "refused 7: day 60001 (2190-04-12) is past the last" retire days 0 --day-number 60001 --ahead --yes
expect 2 "later than tomorrow" retire days 0 --day 2126-01-01 --yes
expect 2 "more than 60 days after the box's day" retire days 0 --day-number 73 --yes
# The aid that backed up on an earlier day than the box's may be retired on the box's.
expect 0 "retired volume 1 on 2026-01-13" retire days 1 --day-number 12 --yes

small_store slots
for day in 1 2 3 4 5 6; do
    expect 0 "backup" backup slots 0 aid --day-number $day
done
expect 3 "refused 9: all 6 backup slots are used, and retiring volume 0 takes one; leave it as it is: its newest backup stays" \
    retire slots 0 --day-number 7 --yes
expect 3 "refused 9" retire slots 1 --day-number 7

small_store journal
blocks ABCD >four
blocks A >one
expect 0 "4 of 4 blocks sent" backup journal 0 four --day-number 1
expect 0 "1 of 1 blocks sent" backup journal 1 one --day-number 2
expect 3 "refused 10: the journal has 3 of its 8 places left, and retiring volume 0 takes 4, one for each of its blocks; leave it as it is" \
    retire journal 0 --day-number 3 --yes
expect 0 "retired volume 1 on 2026-01-04; its last state had 1 block" retire journal 1 --day-number 3 --yes
expect 3 "refused 10: the journal has 2 of its 8 places left" retire journal 0 --day-number 4 --yes

# ---- status doesn't wait for a backup of it

[ "$(date -u +%H%M)" != 2359 ] || sleep 61
ago() {
    date -u -d "-$1 days" +%F
}
store=clinic
expect 0 "made" format clinic --blocks 8 --cells 4 --slots 8 --journal 20 --day-zero "$(ago 40)"
for volume in 0 1 2; do
    expect 0 "enrolled" enrol clinic $volume --keep 30
done
expect 0 "backup 1" backup clinic 0 aid --day "$(ago 20)"
expect 0 "backup 1" backup clinic 1 aid --day "$(ago 20)"
expect 1 "the newest backup of volume 0 is 20 days old" status clinic --older 3
expect 0 "retired" retire clinic 0 --day "$(ago 10)" --yes
expect 0 "retired" retire clinic 2 --day "$(ago 10)" --yes
expect 1 "" status clinic --older 3
check "only the aid that is there" same "$(notes)" "the newest backup of volume 1 is 20 days old"
expect 0 "retired" retire clinic 1 --day "$(ago 10)" --yes
expect 0 "volume 0: retired on $(ago 10), 1 backup, the newest of $(ago 20) is kept until $(date -u -d '+10 days' +%F)" status clinic --older 3
expect_json 0 "o['warnings'] == 0 and o['volumes'][0] == {'volume': 0, 'keep': 30, 'retired': '$(ago 10)', 'backups': 1, 'newest': '$(ago 20)', 'kept_until': '$(date -u -d '+10 days' +%F)'} and o['volumes'][2] == {'volume': 2, 'keep': 30, 'retired': '$(ago 10)', 'backups': 0}" \
    status clinic --older 3
expect 0 'aspenbox_volume_backups{volume="0"} 1' status clinic --prometheus --older 3
check "and no age" same "$(grep -c '^aspenbox_volume_newest_age_days' "$work/out")" 0
# The default day is today's.
expect 0 "enrolled" enrol clinic 3 --keep 30
expect 0 "retired volume 3 on $(ago 0)" retire clinic 3 --yes

# ---- a book that is at fault isn't written

left_aid fault
poke fault/book 36 05
expect 5 "fault/book is damaged" retire fault 0 --day-number 16 --yes
expect 5 "fault/book is damaged" retire fault 0 --day-number 16

# ---- on a terminal it asks

if ! command -v script >/dev/null; then
    echo "not run: retire on a terminal (no script)"
    return 0
fi
# answers STATUS TEXT LINE: what retire says on a terminal to somebody who answers with this line
answers() {
    local wanted=$1 text=$2 status=0
    script -qec "$program retire asked 0 --day-number 16" /dev/null <"$3" >"$work/screen" 2>&1 || status=$?
    check "retire that is answered by $(tr '\n' ' ' <"$3") ends with $wanted" same "$status" "$wanted"
    check "and says: $text" grep -qF "$text" "$work/screen"
}
left_aid asked
content >as_it_was
for no in no "" "yes please"; do
    echo "$no" >line
    answers 2 "volume 0 stays as it is; nothing was written" line
done
: >nothing
answers 2 "volume 0 stays as it is" nothing
check "what it ends is told first" grep -qF "note: $lost" "$work/screen"
check "it asks" grep -qF "Retire volume 0 of asked on 2026-01-17? This can't be undone. [y/N]" "$work/screen"
check "nothing was written" same "$(content)" "$(cat as_it_was)"
for yes in y YES; do
    left_aid asked
    echo "$yes" >line
    answers 0 "retired volume 0 on 2026-01-17" line
    expect 0 "was retired" list asked 0
done
# With --json nobody is asked.
left_aid asked
script -qec "$program retire asked 0 --day-number 16 --json" /dev/null <line >"$work/screen" 2>&1 || true
check "no question with --json" grep -qF '"error":{"status":2' "$work/screen"
expect 0 "keeps" list asked 0

# The store isn't locked while somebody thinks it over, and what has changed by then is noticed.
meanwhile() {
    local status=0 i
    mkfifo thinking
    script -qec "$program retire asked 0 --day-number 16" /dev/null <thinking >"$work/screen" 2>&1 &
    exec 7>thinking
    for ((i = 0; i < 500; i++)); do
        ! grep -qF "[y/N]" "$work/screen" || break
        sleep 0.02
    done
    expect 0 "backup" backup asked "$1" aid --day-number 13 --no-wait
    echo yes >&7
    exec 7>&-
    wait $! || status=$?
    rm thinking
    check "retire after a backup of volume $1 meanwhile" same "$status" "$2"
    check "and says: $3" grep -qF "$3" "$work/screen"
}
meanwhile 0 2 "another command changed what there is of volume 0; nothing was written; give the command again"
expect 0 "takes backup 4" list asked 0
left_aid asked
meanwhile 1 0 "retired volume 0 on 2026-01-17"
