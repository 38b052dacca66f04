# shellcheck shell=bash disable=SC2034,SC2154
# The command line, --help and the manual page.
expect 2 "which command? see aspenbox --help"
expect 2 "there is no command sing; see aspenbox --help" sing
expect 2 "there is no option --loud; see aspenbox audit --help" audit box --loud
expect 2 "there is no option -v; see aspenbox --help" -v
expect 2 "there is no option --da; see" collect box --da 3
expect 2 "there is no option --state; see aspenbox backup --help" backup box 0 aid --state file
expect 2 "audit takes no --day; see aspenbox audit --help" audit box --day 2026-01-03
expect 2 "--day is given twice" collect box --day 2026-01-03 --day 2026-01-04
expect 2 "--day wants a value: --day DATE" collect box --day
# An option in the place of a value is one that was meant to follow the value.
expect 2 "--day wants a value: --day DATE" collect box --day --no-wait
expect 2 "--keep wants a value: --keep DAYS" enrol box 0 --keep --json
expect 2 "--day wants a value: --day DATE" collect box --day --json
check "nothing was made of it" test ! -e --json
expect 2 "--day-zero wants a value" format box --day-zero --blocks 4
expect 2 "there is no option --day-numbe=3; see" collect box --day-numbe=3
expect 2 "--json takes no value" audit box --json=yes
expect 2 "enrol wants --keep DAYS; see aspenbox enrol --help" enrol box 0
expect 2 "enrol wants DIR VOLUME; see aspenbox enrol --help" enrol box --keep 3
expect 2 "more is one word too many; see aspenbox audit --help" audit box more
for word in x -1 "" 65536 1x 99999999999999999999999; do
    expect 2 "VOLUME $word is no number from 0 to 65535" list box -- "$word"
done
expect 2 "NUMBER x is no number" read box 0 x 0
expect 2 "LBN x is no number" read box 0 1 x
expect 0 "aspenbox " --version

# A folder whose name looks like an option, and values after =.
store=./--json
expect 0 "made the store --json" format --blocks=4 --cells=4 --slots=6 --journal=8 -- --json
expect 0 "sound" audit -- --json

expect 0 "Every command takes" --help
cp "$work/out" help
commands=$(awk '/^  aspenbox / { print $2 }' help)
check "fourteen commands" test "$(wc -w <<<"$commands")" -eq 14
for command in $commands; do
    expect 0 "usage: aspenbox $command" "$command" --help
    check "the synopsis of $command is that of aspenbox --help" grep -qFx -- "  $(sed -n 's/^usage: //p' "$work/out")" help
done
if command -v groff >/dev/null; then
    page=$here/../../man/aspenbox.1
    check "the manual page renders without a warning" same "$(groff -man -Tutf8 -ww -z "$page" 2>&1)" ""
    groff -man -Tascii -P-cbou -rLL=200n "$page" >rendered
    check "the manual page has the synopsis of --help" same "$(sed -n 's/^  *\(aspenbox [a-z]* DIR.*\)/\1/p' help)" \
        "$(sed -n '/^SYNOPSIS/,/^DESCRIPTION/s/^ *\(aspenbox .*\)/\1/p' rendered)"
else
    echo "not run: the manual page of aspenbox (no groff)"
fi
