# shellcheck shell=bash disable=SC2034,SC2154
# Progress shows on a terminal, and nowhere else.
if ! command -v script >/dev/null; then
    echo "not run: progress on a terminal (no script)"
    return 0
fi
store=box
expect 0 "made" format box --blocks 40 --cells 32 --slots 6 --journal 64 --day-zero 2026-01-01
expect 0 "enrolled" enrol box 0 --keep 10
head -c 16384 /dev/urandom >aid
# on_terminal ARGUMENT..
on_terminal() {
    script -qec "$program $*" /dev/null >"$work/screen" 2>&1 </dev/null
}
on_terminal backup box 0 aid --day-number 1
check "progress of a backup" grep -q "hashing: 0 of 32 blocks" "$work/screen"
check "and its answer" grep -q "32 of 32 blocks sent" "$work/screen"
on_terminal restore box 0 1 out
check "progress of a restore" grep -q "restoring: 0 of 32 blocks" "$work/screen"
check "restored" cmp out aid
on_terminal scrub box
check "progress of a scrub" grep -q "hashing: 0 of 40 blocks" "$work/screen"
on_terminal scrub box --json
check "no progress with --json" same "$(tr -d '\r' <"$work/screen")" '{"damaged":[],"held":32,"healed":0}'
expect 0 "32 held blocks" scrub box
check "no progress off a terminal" test ! -s "$work/err"
