# shellcheck shell=bash disable=SC2034,SC2154
# Which backup restore takes, and which blocks of it; list says the same.
store=box
expect 0 "made" format box --blocks 16 --cells 8 --slots 8 --journal 20 --day-zero 2026-01-01
expect 0 "enrolled" enrol box 0 --keep 10
expect 0 "enrolled" enrol box 1 --keep 10
# back_up DAY LETTERS
back_up() {
    blocks "$2" >"image.$1"
    expect 0 "backup" backup box 0 "image.$1" --day "2026-01-$1"
}
back_up 05 ABC
back_up 08 ABD
back_up 12 ABDE
# takes NUMBER DAY OPTION..: restore gives this backup, and list says so
takes() {
    local number=$1 image=image.$2
    shift 2
    expect 0 "restored backup $number of volume 0 to out: $(wc -c <"$image") bytes" restore box 0 out --force "$@"
    check "restore $* gives the image of backup $number" cmp out "$image"
    # --latest is told by every list, a date where it is asked for
    [ "$1" != --latest ] || set -- "$1" ""
    expect 0 "  restore $1${2:+ $2} takes backup $number" list box 0 ${2:+"$1" "$2"}
}
takes 3 12 --latest
takes 1 05 --date 2026-01-05
takes 1 05 --date 2026-01-07
takes 2 08 --date 2026-01-08
takes 2 08 --date 2026-01-11
takes 3 12 --date 2026-01-12
takes 3 12 --date 2999-12-31
expect 3 "refused 15: volume 0 has no backup on or before 2026-01-04; its first is of 2026-01-05" restore box 0 none --date 2026-01-04
expect 3 "its first is of 2026-01-05" restore box 0 none --date 1999-12-31
expect 0 "restore --date 2026-01-04 takes none: there is no backup by then" list box 0 --date 2026-01-04
expect 3 "refused 15: volume 1 has no backup yet" restore box 1 none --latest
expect 3 "refused 15: volume 1 has no backup yet" restore box 1 none --date 2026-01-08
expect 3 "refused 5: volume 2 isn't enrolled" restore box 2 none --latest
check "list says nothing of a volume without backups" same "$($program list box 1 | grep -c takes)" 0
expect_json 0 'o["volumes"][0]["latest_takes"] == 3 and o["volumes"][0]["date_takes"] == 2 and o["volumes"][1]["latest_takes"] is None and o["volumes"][1]["date_takes"] is None' \
    list box --date 2026-01-11
expect_json 0 'o["volumes"][0]["latest_takes"] == 3 and "date_takes" not in o["volumes"][0]' list box 0
expect_json 0 '(o["number"], o["bytes"], o["blocks"], o["mapped"]) == (2, 1536, 3, 3)' restore box 0 out --force --date 2026-01-09
# A backup that is no longer kept is named, and none is taken in its place.
expect 0 "collected" collect box --day 2026-01-16
expect 3 "refused 16: backup 1 of volume 0 was kept until 2026-01-15" restore box 0 none --date 2026-01-06
expect 0 "restored backup 3" restore box 0 out --force --latest

# Some of the blocks.
# blocks_of LBNS LETTERS: what comes of backup 3
blocks_of() {
    expect 0 "restored backup 3 of volume 0 to out: $((512 * ${#2})) bytes, ${#2} blocks" restore box 0 3 out --force --lbns "$1"
    check "the blocks $1" cmp out <(blocks "$2" | tr . '\0')
}
blocks_of 0-3 ABDE
blocks_of 1-2 BD
blocks_of 2 D
blocks_of 3-3 E
blocks_of 3-7 E....
blocks_of 0-7 ABDE....
expect 0 "restored backup 2" restore box 0 - --date 2026-01-09 --lbns 2-2
check "a block by its date on standard output" printed <(blocks D)
expect_json 0 '(o["bytes"], o["blocks"], o["mapped"]) == (1536, 3, 2)' restore box 0 --latest out --force --lbns 2-4
expect 3 "refused 21: there is no LBN 8; LBNs are 0 to 7" restore box 0 3 none --lbns 7-8
expect 3 "refused 21: there is no LBN 9" restore box 0 3 none --lbns 9-9
expect 3 "refused 21: there is no LBN 8" restore box 0 3 none --lbns 0-65535
expect 2 "--lbns 3-2 ends before it starts" restore box 0 3 none --lbns 3-2
for lbns in x 1-x x-1 1- -1 1-2-3 0x1 70000 1-70000 "" "1 -2"; do
    expect 2 "--lbns" restore box 0 3 none --lbns="$lbns"
done
expect 2 "give --latest or --date, not both" restore box 0 none --latest --date 2026-01-08
expect 2 "with --latest or --date there is no NUMBER" restore box 0 3 none --latest
expect 2 "with --latest or --date there is no NUMBER" restore box 0 3 none --date 2026-01-08
expect 2 "restore wants NUMBER, --latest or --date" restore box 0 none
expect 2 "--date soon is no date like 2026-01-31" restore box 0 none --date soon
expect 2 "--date 2026-02-30 is no date" list box --date 2026-02-30
check "nothing came of what was refused" test ! -e none
