# shellcheck shell=bash disable=SC2034,SC2154
# One writer at a time; readers beside each other. `flock` holds the lock as another aspenbox would.
small_store box
blocks AB >aid
expect 0 "backup" backup box 0 aid --day-number 1
# held KIND COMMAND..: runs a command while the lock is held
held() {
    local kind=$1
    shift
    flock "$kind" box/lock "$@"
}
export -f box
export program work input
# shellcheck disable=SC2016
under='box "$@"; echo "$status" >"$work/status"'
# expect_held KIND STATUS TEXT ARGUMENT..
expect_held() {
    local kind=$1 wanted=$2 text=$3
    shift 3
    held "$kind" timeout 60 bash -c "$under" bash "$@" || echo 124 >"$work/status"
    check "status $wanted while $kind: $*" same "$(cat "$work/status")" "$wanted"
    check "says $text while $kind: $*" grep -qaF -- "$text" "$work/out" "$work/err"
}
expect_held --shared 0 "restored" restore box 0 1 out
expect_held --shared 0 "volume 0" list box --no-wait
expect_held --shared 0 "sound" audit box --no-wait
expect_held --shared 6 "another aspenbox uses the store" collect box --day-number 2 --no-wait
expect_held --shared 6 "another aspenbox uses the store" retire box 0 --yes --day-number 2 --no-wait
expect_held --shared 2 "give --yes" retire box 0 --day-number 2 --no-wait
expect_held --exclusive 6 "another aspenbox uses the store" backup box 0 aid --day-number 2 --no-wait
expect_held --shared 6 "another aspenbox uses the store" upgrade box --no-wait
expect_held --exclusive 6 "another aspenbox uses the store" read box 0 1 0 --no-wait
expect_held --exclusive 6 '"status":6' audit box --no-wait --json

# A writer waits until the reader is done, and then does its work.
mkfifo hold
flock --shared box/lock cat hold >/dev/null &
reader=$!
exec 9>hold
# shellcheck disable=SC2086
$program collect box --day-number 2 >waiting.out 2>waiting.err 9>&- &
writer=$!
for _ in $(seq 600); do
    grep -q "waiting for it" waiting.err && break
    sleep 0.1
done
check "the writer says that it waits" grep -q "another aspenbox uses the store; waiting for it" waiting.err
expect 0 "sound" audit box
check "the writer has done nothing yet" test ! -s waiting.out
exec 9>&-
wait "$reader"
check "the writer ends" wait "$writer"
check "and has done its work" grep -q "collected as of 2026-01-03" waiting.out

# Many writers at once: each call counts once.
pids=()
for volume in 2 3 4 5 6 7; do
    # shellcheck disable=SC2086
    $program enrol box $volume --keep $volume >"enrol.$volume" 2>&1 &
    pids+=($!)
done
for pid in "${pids[@]}"; do
    check "a writer among many" wait "$pid"
done
expect 0 "volume 7 keeps its backups 7 days" list box
check "all eight volumes" test "$(grep -c keeps "$work/out")" -eq 8
