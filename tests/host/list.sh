# shellcheck shell=bash disable=SC2034,SC2154
# The list: numbers, dates, kept until, changed blocks.
small_store box
expect 0 "no backup yet" list box
# back_up VOLUME DAY LETTERS
back_up() {
    blocks "$3" >"aid$1"
    expect 0 "backup" backup box "$1" "aid$1" --day-number "$2"
}
back_up 1 1 AB
back_up 1 3 AC
back_up 1 4 AD
back_up 0 6 AD
expect 0 "" list box
cat >wanted <<'END'
the box's day is 2026-01-07
volume 0 keeps its backups 10 days
  number  day         kept until  changed
       1  2026-01-07  newest            2
  restore --latest takes backup 1
volume 1 keeps its backups 3 days
  number  day         kept until  changed
       1  2026-01-02  2026-01-05        2  no longer kept
       2  2026-01-04  2026-01-07        1
       3  2026-01-05  newest            1
  restore --latest takes backup 3
END
check "list of all volumes" printed wanted
expect 0 "" list box 1
check "list of one volume" printed <(sed -e '/^volume 0/,/takes/d' wanted)
expect 3 "refused 5: volume 2 isn't enrolled" list box 2
# What the list calls kept can be read, and nothing else can.
expect 3 "refused 16" read box 1 1 0
expect 0 "AAAA" read box 1 2 0
