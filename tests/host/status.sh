# shellcheck shell=bash disable=SC2034,SC2154
# status: how full the store is, how old its backups are, whether it is sound.
# Today has to stay today.
[ "$(date -u +%H%M)" != 2359 ] || sleep 61
ago() {
    date -u -d "-$1 days" +%F
}
store=box
expect 0 "made" format box --blocks 10 --cells 8 --slots 10 --journal 20 --day-zero "$(ago 20)"
expect 0 "" status box
cat >wanted <<END
box: 10 blocks, volumes of 8 blocks, 10 backups, 20 changes; day 0 is $(ago 20)
the box's day is $(ago 20); the book is sound
pool         0 of    10 blocks held,   0 %
slots        0 of    10 backups taken,   0 %
journal      0 of    20 changes noted,   0 %
0 of the held blocks wait for a collection
END
check "a new store" printed wanted
for volume in 0 1 7; do
    expect 0 "enrolled" enrol box $volume --keep 3
done
blocks ABCDE >aid
expect 0 "backup 1" backup box 0 aid --day "$(ago 12)"
blocks ABCDF >aid
expect 0 "backup 2" backup box 0 aid --day "$(ago 10)"
expect 0 "backup 1" backup box 7 aid --day "$(ago 1)"
expect 0 "" status box
cat >wanted <<END
box: 10 blocks, volumes of 8 blocks, 10 backups, 20 changes; day 0 is $(ago 20)
the box's day is $(ago 1); the book is sound
pool         6 of    10 blocks held,  60 %
slots        3 of    10 backups taken,  30 %
journal     11 of    20 changes noted,  55 %
1 of the held blocks wait for a collection
volume 0: 2 backups, the newest of $(ago 10), 10 days ago
volume 1: no backup yet
volume 7: 1 backup, the newest of $(ago 1), 1 day ago
END
check "status in words" printed wanted
check "and no warning" test ! -s "$work/err"
expect_json 0 'list(o) == ["store", "cells", "day_zero", "day", "date", "sound", "pool", "slots", "journal", "waiting", "volumes", "warnings"]' status box
expect_json 0 '(o["store"], o["cells"], o["day"], o["sound"], o["waiting"], o["warnings"]) == ("box", 8, 19, True, 1, 0)' status box
expect_json 0 'o["pool"] == {"used": 6, "room": 10, "percent": 60} and o["slots"] == {"used": 3, "room": 10, "percent": 30} and o["journal"] == {"used": 11, "room": 20, "percent": 55}' \
    status box
expect_json 0 "o['day_zero'] == '$(ago 20)' and o['date'] == '$(ago 1)' and o['volumes'] == [{'volume': 0, 'keep': 3, 'backups': 2, 'newest': '$(ago 10)', 'age': 10}, {'volume': 1, 'keep': 3, 'backups': 0}, {'volume': 7, 'keep': 3, 'backups': 1, 'newest': '$(ago 1)', 'age': 1}]" \
    status box

expect 0 "" status box --prometheus
cat >wanted <<'END'
# HELP aspenbox_sound 1 if the book is sound, else 0.
# TYPE aspenbox_sound gauge
aspenbox_sound 1
# HELP aspenbox_used Places used of the pool, the slots and the journal.
# TYPE aspenbox_used gauge
aspenbox_used{part="pool"} 6
aspenbox_used{part="slots"} 3
aspenbox_used{part="journal"} 11
# HELP aspenbox_room Places that the pool, the slots and the journal have.
# TYPE aspenbox_room gauge
aspenbox_room{part="pool"} 10
aspenbox_room{part="slots"} 10
aspenbox_room{part="journal"} 20
# HELP aspenbox_waiting_blocks Held blocks that wait for a collection.
# TYPE aspenbox_waiting_blocks gauge
aspenbox_waiting_blocks 1
# HELP aspenbox_warnings What aspenbox status warns of.
# TYPE aspenbox_warnings gauge
aspenbox_warnings 0
# HELP aspenbox_volume_backups Backups of an enrolled volume.
# TYPE aspenbox_volume_backups gauge
aspenbox_volume_backups{volume="0"} 2
aspenbox_volume_backups{volume="1"} 0
aspenbox_volume_backups{volume="7"} 1
# HELP aspenbox_volume_newest_age_days Days since the newest backup of a volume.
# TYPE aspenbox_volume_newest_age_days gauge
aspenbox_volume_newest_age_days{volume="0"} 10
aspenbox_volume_newest_age_days{volume="7"} 1
END
check "status for a node exporter" printed wanted

# ---- warnings

# warns STATUS NOTES OPTION..: what is warned of, on lines of their own, and how many that are
warns() {
    local wanted=$1 notes=$2
    shift 2
    expect "$wanted" "" status box "$@"
    check "status $* warns" same "$(sed 's/^aspenbox: note: //' "$work/err")" "$notes"
    expect "$wanted" "aspenbox_warnings $(grep -c . <<<"$notes")" status box --prometheus "$@"
}
pool="the pool is 60 % full"
slots="the slots are 30 % full"
journal="the journal is 55 % full"
zero="the newest backup of volume 0 is 10 days old"
one="volume 1 has no backup yet"
seven="the newest backup of volume 7 is 1 day old"
warns 0 "" --warn 61
warns 1 "$pool" --warn 60
warns 1 "$pool" --warn 56
warns 1 "$pool"$'\n'"$journal" --warn 55
warns 1 "$pool"$'\n'"$journal" --warn 31
warns 1 "$pool"$'\n'"$slots"$'\n'"$journal" --warn 30
warns 0 "" --warn 100
warns 1 "$one" --older 10
warns 1 "$zero"$'\n'"$one" --older 9
warns 1 "$zero"$'\n'"$one" --older 1
warns 1 "$zero"$'\n'"$one"$'\n'"$seven" --older 0
warns 1 "$pool"$'\n'"$zero"$'\n'"$one" --older 5 --warn 60
expect_json 1 'o["warnings"] == 2 and o["notes"] == ["the pool is 60 % full", "volume 1 has no backup yet"] and o["sound"] is True' status box --older 30 --warn 60
# 90 percent is what counts without an option.
blocks GHI >aid
expect 0 "backup 1 of volume 1 on $(ago 0): 3 of 3 blocks sent, 3 new" backup box 1 aid
warns 1 "the pool is 90 % full"
warns 0 "" --warn 91
warns 0 "" --older 10 --warn 100
# A backup ahead of the clock isn't old.
expect 0 "backup 2" backup box 1 aid --day "$(date -u -d '+1 day' +%F)"
expect 0 "volume 1: 2 backups, the newest of $(date -u -d '+1 day' +%F), 1 day ahead of the clock" status box --warn 100
expect 0 'aspenbox_volume_newest_age_days{volume="1"} -1' status box --prometheus --warn 100
expect_json 0 '[v["age"] for v in o["volumes"]] == [10, -1, 1]' status box --warn 100

for percent in 0 101 65535; do
    expect 2 "--warn wants a percentage from 1 to 100" status box --warn $percent
done
expect 2 "--warn x is no number" status box --warn x
expect 2 "--older -1 is no number" status box --older=-1
expect 2 "give --json or --prometheus, not both" status box --json --prometheus
expect 5 "none is no store" status none
expect_json 5 'o["error"]["status"] == 5' status none

# ---- a damaged store: told in every form, with what can still be said

cp -r box whole
poke box/book 36 05
for option in "" --prometheus; do
    expect 1 "box/book is damaged: its bytes don't fit their digest" status box --warn 100 $option
done
expect 1 "the book is damaged" status box --warn 100
expect 1 "aspenbox_sound 0" status box --warn 100 --prometheus
expect_json 1 'o["sound"] is False and o["warnings"] == 0 and len(o["notes"]) == 1 and "digest" in o["notes"][0]' status box --warn 100
rm -r box
cp -r whole box
age box
expect 0 "the book is sound" status box --warn 100
poke box/book 36 05
expect 1 "maps, counts or days don't agree with the journal" status box --warn 100
poke box/book 0 00
expect 5 "refused 1: box/book is no book" status box
# It doesn't look at the pool, and changes nothing.
rm -r box
cp -r whole box
rm box/pool
expect 0 "the book is sound" status box --warn 100
cp whole/pool box/pool
check "the store is as it was" diff -r box whole
