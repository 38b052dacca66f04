# shellcheck shell=bash disable=SC2034,SC2154
# Started with closed standard streams, a command leaves the store's files as it does with open ones. What is opened first then
# gets the number of a stream, and a message would be written into it.
sets=("<&-" ">&-" "2>&-" "<&- >&-" "<&- 2>&-" ">&- 2>&-" "<&- >&- 2>&-")
small_store whole
blocks AB >aid1
blocks AC >aid2
blocks AD >aid3
expect 0 "backup 1" backup whole 0 aid1 --day 2026-01-02
expect 0 "backup 2" backup whole 0 aid2 --day 2026-01-03
# The block that only backup 1 has is damaged, so that restore has something to tell and scrub something to heal.
poke whole/pool 700 00
# The status with open streams, and the command.
commands=(
    "0 enrol box 2 --keep 5" "3 enrol box 0 --keep 5" "3 enrol box 3 --keep 0 --json"
    "0 backup box 0 aid3 --day 2026-01-04" "3 backup box 0 aid3 --day 2026-01-03" "2 backup box 0 none --day 2026-01-04"
    "0 backup box 1 aid1 --day 2026-01-04 --json" "3 backup box 1 aid1 --day 2026-01-02 --json"
    "0 collect box --day 2026-01-20" "3 collect box --day 2026-01-01"
    "0 retire box 0 --day 2026-01-20 --yes" "2 retire box 0 --day 2026-01-20" "3 retire box 0 --day 2026-01-03 --yes --json"
    "0 read box 0 2 0" "1 read box 0 1 1" "3 read box 0 1 3" "0 read box 0 2 0 --json"
    "0 restore box 0 2 out" "1 restore box 0 1 out --json" "1 restore box 0 1 -" "3 restore box 0 3 out"
    "2 restore box 0 2 box/pool --force" "0 restore box 0 out --latest"
    "0 list box" "3 list box 5" "0 list box --json" "0 status box" "1 status box --older 3" "0 status box --prometheus"
    "5 status none" "0 audit box" "5 audit none" "0 tally box" "2 tally box 1"
    "1 scrub box" "1 scrub box --json" "0 scrub box --heal aid1" "2 scrub box --heal none"
    "0 book box" "5 book none" "2 sing" "0 --help" "0 --version --json"
)
# run_on COPY COMMAND REDIRECTION: on a new copy of the store, which is then in COPY; the answer and OUT are beside it
run_on() {
    rm -rf box out "$1" "$1.out" "$1.restored"
    cp -r whole box
    status=0
    # shellcheck disable=SC2086
    (eval "exec $program $2 $3") >"$1.out" 2>/dev/null </dev/null || status=$?
    mv box "$1"
    [ ! -e out ] || mv out "$1.restored"
}
# as_open SET: `closed` is what `open` is. Where standard output is open, status and answer are the same, else the answer is lost.
as_open() {
    diff -r open closed || return 1
    if [ -e open.restored ] || [ -e closed.restored ]; then
        cmp open.restored closed.restored || return 1
    fi
    if [[ " $1" == *" >&-"* ]]; then
        [ "$status" -eq "$wanted" ] || [ "$status" -eq 4 ]
    else
        [ "$status" -eq "$wanted" ] && cmp open.out closed.out
    fi
}
for command in "${commands[@]}"; do
    wanted=${command%% *}
    command=${command#* }
    run_on open "$command" ""
    check "aspenbox $command: status" same "$status" "$wanted"
    check "aspenbox $command leaves the files of a store" same "$(ls open)" $'book\nlock\npool'
    for set in "${sets[@]}"; do
        run_on closed "$command" "$set"
        check "aspenbox $command $set ended with $status" as_open "$set"
    done
done

# format draws an identity; all else is the same.
sizes="--blocks 4 --cells 4 --slots 6 --journal 8 --day-zero 2026-01-01"
rm -rf open
# shellcheck disable=SC2086
expect 0 "made" format open $sizes
for set in "${sets[@]}"; do
    rm -rf new
    status=0
    (eval "exec $program format new $sizes $set") >/dev/null 2>&1 </dev/null || status=$?
    check "format $set: status" test "$status" -eq 0 -o "$status" -eq 4
    check "format $set: files" same "$(ls new)" $'book\nlock\npool'
    check "format $set: lengths" same "$(wc -c new/lock new/book new/pool | awk '{ print $1 }')" \
        "$(wc -c open/lock open/book open/pool | awk '{ print $1 }')"
    check "format $set: pool" cmp new/pool open/pool
    check "format $set: book" cmp -n 280 new/book open/book
    check "format $set: lock" same "$(head -2 new/lock)" "$(head -2 open/lock)"
    expect 0 "sound" audit new
    cp -r new before
    (eval "exec $program format new $sizes $set") >/dev/null 2>&1 </dev/null || status=$?
    check "format $set: a store that is there stays as it was" diff -r new before
    rm -r before
done

# The two lines that found it.
store=box
rm -rf box
expect 0 "made" format box --blocks 64 --cells 64 --slots 6 --journal 200 --day-zero 2026-01-01
expect 0 "enrolled" enrol box 0 --keep 10
head -c 32768 /dev/urandom >a.img
expect 0 "64 of 64" backup box 0 a.img --day 2026-01-02
expect 0 "collected" collect box --day 2026-01-02
rm -rf whole
cp -r box whole
(eval "exec $program enrol box 0 --keep 5 2>&-") >/dev/null </dev/null || true
check "enrol 2>&- leaves the lock alone" diff -r whole box
# A pool that can't grow past 8 KiB of what was written, and nobody to tell.
rm -rf box whole
expect 0 "made" format box --blocks 64 --cells 64 --slots 6 --journal 200 --day-zero 2026-01-01
expect 0 "enrolled" enrol box 0 --keep 10
head -c 4096 /dev/urandom >a.img
expect 0 "8 of 8" backup box 0 a.img --day 2026-01-02
cp -r box whole
cp a.img b.img
head -c 16384 /dev/urandom >>b.img
(
    trap '' XFSZ
    ulimit -f 8
    eval "exec $program backup box 0 b.img --day 2026-01-03 >&- 2>&-"
) </dev/null || true
check "a message isn't written over a block" cmp -n 4096 whole/pool box/pool
check "nor over the book" cmp whole/book box/book
check "nor over the lock" cmp whole/lock box/lock
expect 0 "0 damaged" scrub box
expect 0 "restored" restore box 0 1 back
check "the backup before is whole" cmp back a.img

# An image that was to come from a standard input which is closed.
cp -r box before
status=0
(eval "exec $program backup box 0 - --day 2026-01-04 <&-") >"$work/out" 2>"$work/err" || status=$?
check "status without an input" test "$status" -eq 4 -o "$status" -eq 2
check "its message" grep -q "can't read standard input" "$work/err"
check "and nothing was changed" diff -r before box
