# shellcheck shell=bash disable=SC2034,SC2154
# Who may read what is written, what is never written over, and what nobody waits for.
small_store box
blocks AB >aid
expect 0 "backup 1" backup box 0 aid --day 2026-01-02
# modes FILE..: mode, owner and group of each
modes() {
    stat -c '%n %a %u %g' "$@"
}

# ---- modes and owners

# A restored file is its owner's alone, whatever the mask and whatever an empty file there had.
for mask in 000 022 077; do
    rm -f out
    (umask $mask && box restore box 0 1 out)
    check "mode of a restored file, mask $mask" same "$(stat -c %a out)" 600
done
: >out
chmod 644 out
expect 0 "restored" restore box 0 1 out
check "mode of a file that was empty" same "$(stat -c %a out)" 600
# --force keeps what the file had.
for mode in 600 640 664 444; do
    chmod $mode out
    expect 0 "restored" restore box 0 1 out --force
    check "--force keeps mode $mode" same "$(stat -c %a out)" $mode
done
# So does a new book.
for mode in 640 600 664; do
    chmod $mode box/book
    expect 0 "collected" collect box --day 2026-01-02
    check "a new book keeps mode $mode" same "$(stat -c %a box/book)" $mode
done
check "nothing else is in the store" same "$(ls box)" $'book\nlock\npool'
if [ "$(id -u)" -eq 0 ]; then
    chown 65534:65533 out box box/*
    chmod 640 out box/*
    before=$(modes box box/*)
    expect 0 "restored" restore box 0 1 out --force
    check "--force keeps the owner" same "$(modes out)" "out 640 65534 65533"
    expect 0 "backup 2" backup box 0 aid --day 2026-01-03
    expect 0 "enrolled" enrol box 2 --keep 3
    expect 0 "collected" collect box --day 2026-01-03
    check "what root writes keeps owner, group and mode" same "$(modes box box/*)" "$before"
    expect 0 "0 damaged" scrub box --heal aid
    check "and so does a healed pool" same "$(modes box box/*)" "$before"
else
    echo "not run: owners of files (not root)"
fi
# as_nobody ARGUMENT..: the program as a user who has nothing here but what a mode gives
as_nobody() {
    # shellcheck disable=SC2086
    setpriv --reuid 65534 --regid 65534 --clear-groups $program "$@"
}
if [ "$(id -u)" -eq 0 ] && chmod 755 "$work" "$work/sections" . && as_nobody --version >"$work/log" 2>&1; then
    chown -R 0:0 box
    chmod 777 box
    chmod 666 box/*
    check "another user writes" as_nobody collect box --day 2026-01-03
    check "a group that can't be kept gets nothing" same "$(modes box/book)" "box/book 606 65534 65534"
    chown 0:65534 box/book
    chmod 660 box/book
    check "another user of the group writes" as_nobody collect box --day 2026-01-03
    check "the group is kept" same "$(modes box/book)" "box/book 660 65534 65534"
    chown 0:0 box/book
    chmod 600 box/book
    status=0
    as_nobody list box >"$work/out" 2>"$work/err" || status=$?
    check "a book that may not be read" same "$status $(cat "$work/err")" "4 aspenbox: can't open box/book: Permission denied"
    chmod 600 aid
    chmod 666 box/*
    status=0
    as_nobody backup box 0 aid --day 2026-01-04 >"$work/out" 2>"$work/err" || status=$?
    check "an image that may not be read" same "$status $(cat "$work/err")" "2 aspenbox: can't open aid: Permission denied"
    status=0
    as_nobody restore box 0 1 nobodys >"$work/out" 2>"$work/err" || status=$?
    check "a folder that may not be written" same "$status $(cat "$work/err")" "2 aspenbox: can't create nobodys.aspenbox.new: Permission denied"
else
    echo "not run: aspenbox as another user (not root, or the program isn't there for others)"
fi

# ---- never over a file of a store

small_store other
small_store box
expect 0 "backup 1" backup box 0 aid --day 2026-01-02
ln -s box linked
ln -s . here
cp -r box whole
for out in box/book box/pool box/lock box/book.new ./box//pool box/../box/pool "$PWD/box/pool" linked/pool here/box/book \
    here/here/linked/lock other/pool; do
    expect 2 "$out is a file of a store; name another file" restore box 0 1 "$out" --force
    expect 2 "is a file of a store" restore box 0 1 "$out"
done
(cd box && box restore . 0 1 pool --force && echo "$status" >"$work/status")
check "by its name alone" same "$(cat "$work/status")" 2
# Also of a store whose lock is damaged.
poke other/lock 0 00
cp -r other damaged
expect 2 "other/pool is a file of a store" restore box 0 1 other/pool --force
expect 2 "other/book is a file of a store" restore box 0 1 other/book --force
check "the damaged store is as it was" diff -r other damaged
# Another name for the pool is replaced, and the pool isn't.
ln -s box/pool symbolic
ln box/pool hard
expect 0 "restored" restore box 0 1 symbolic --force
expect 0 "restored" restore box 0 1 hard --force
check "both have the image" cmp symbolic aid
check "both have the image" cmp hard aid
check "the store is as it was" diff -r box whole
# Files of these names elsewhere are files like others.
mkdir elsewhere
echo "a story" >elsewhere/book
expect 0 "restored" restore box 0 1 elsewhere/book --force
check "a book of something else" cmp elsewhere/book aid
expect 0 "restored" restore box 0 1 elsewhere/pool
expect 0 "restored" restore box 0 1 box.book
rm box.book

# ---- in the way

mkdir box/book.new
expect 4 "the folder box/book.new is in the way; remove it" collect box --day 2026-01-03
expect 4 "the folder box/book.new is in the way" enrol box 2 --keep 3
expect_json 4 'o["error"] == {"status": 4, "message": "the folder box/book.new is in the way; remove it"}' enrol box 2 --keep 3
rmdir box/book.new
# A link there isn't followed.
ln -s ../elsewhere/book box/book.new
expect 4 "can't create box/book.new: File exists" collect box --day 2026-01-03
check "where it leads to is as it was" cmp elsewhere/book aid
rm box/book.new
echo "half a book" >box/book.new
expect 0 "collected" collect box --day 2026-01-03
check "a book that was left is removed" same "$(ls box)" $'book\nlock\npool'
mkdir lies.aspenbox.new
expect 2 "the folder lies.aspenbox.new is in the way; remove it" restore box 0 1 lies
rmdir lies.aspenbox.new

# ---- nobody waits for a pipe

# in_time STATUS TEXT ARGUMENT..: as expect, within some seconds
in_time() {
    local bounded=$program
    program="timeout 20 $program"
    expect "$@"
    program=$bounded
}
mkfifo pipe
in_time 2 "pipe is no regular file; name one, or - for standard input" backup box 0 pipe --day 2026-01-04
in_time 2 "pipe is no regular file" scrub box --heal aid pipe
in_time 2 "pipe is no regular file; name one, or - for standard output" restore box 0 1 pipe
in_time 2 "pipe is no regular file" restore box 0 1 pipe --force
in_time 2 "/dev/zero is no regular file" backup box 0 /dev/zero --day 2026-01-04
in_time 2 "/dev/full is no regular file" restore box 0 1 /dev/full --force
check "the pipe is one still" test -p pipe

# ---- the store is free while somebody is slow

store=large
expect 0 "made" format large --blocks 4096 --cells 1024 --slots 1024 --journal 16384 --day-zero 2026-01-01
expect 0 "enrolled" enrol large 0 --keep 10
head -c 524288 /dev/urandom >image
expect 0 "1024 of 1024" backup large 0 image --day 2026-01-02
# while_slow COMMAND REDIRECTION: while nobody reads more than a byte of what it writes to the pipe, a writer gets the store at
# once. What it writes is then in `written`.
volume=2
day=2026-01-02
while_slow() {
    local slow
    exec 8<>pipe
    (eval "exec $program $1 $2" 8<&-) >/dev/null 2>&1 </dev/null &
    slow=$!
    timeout 60 dd bs=1 count=1 status=none <&8 >written
    check "aspenbox $1 has begun to write" test -s written
    expect 0 "collected" collect large --day "$day" --no-wait
    expect 0 "enrolled" enrol large "$volume" --keep 3 --no-wait
    volume=$((volume + 1))
    check "aspenbox $1 isn't done yet" kill -0 $slow
    exec 7<pipe 8<&-
    timeout 60 cat <&7 >>written
    exec 7<&-
    check "aspenbox $1 ends" wait $slow
}
while_slow "restore large 0 1 -" ">pipe"
check "the image came" cmp written image
expect 0 "" book large
cp "$work/out" book
while_slow "book large" ">pipe"
check "the book came" cmp written book
expect 0 "enrolled" enrol large 1 --keep 3
# So it is while an image comes slowly: the pipe takes 64 KiB, so that with 200,000 bytes given it is being read.
exec 8<>pipe
(eval "exec $program backup large 0 - --day 2026-01-03" 8<&-) >slow.out 2>&1 <pipe &
slow=$!
timeout 60 head -c 200000 image >&8
expect 0 "collected" collect large --day 2026-01-02 --no-wait
check "the backup isn't done yet" kill -0 $slow
timeout 60 tail -c +200001 image >&8
exec 8<&-
check "the backup ends" wait $slow
check "and has all of the image" grep -q "^backup 2 of volume 0 on 2026-01-03: 0 of 1024 blocks sent" slow.out
# Every block rotted, so that there is more to note than a pipe takes.
head -c 524288 /dev/zero | dd of=large/pool conv=notrunc status=none
day=2026-01-03
while_slow "backup large 1 image --day 2026-01-03" "2>pipe"
check "the notes came" test "$(grep -c 'has its bytes back from image$' written)" -eq 1024
rm -r large

# ---- names

long=$(printf '%0300d' 0)
expect 2 "File name too long" backup box 0 "$long" --day 2026-01-04
expect 2 "File name too long" restore box 0 1 "$long"
expect 2 "File name too long" restore box 0 1 "$long/out"
expect 2 "File name too long" restore box 0 1 "${long:50}"
expect 4 "$long/lock: File name too long" list "$long"
expect 4 "File name too long" format "$long" --blocks 4 --cells 4 --slots 6 --journal 8
deep=$(printf '%04096d' 0 | sed 's:0:a/:g')
expect 2 "File name too long" restore box 0 1 "${deep}out"
expect 4 "File name too long" list "$deep"
# Control characters are shown, not sent to the terminal; also those above U+007F.
store=box
expect 5 'a\x0ab\x1b[31m\x7f\xc2\x85c is no store' list $'a\nb\x1b[31m\x7f\u0085c'
expect 2 '\x1b]0;title\x07: No such file' backup box 0 $'\x1b]0;title\x07' --day 2026-01-04
expect 0 'to out\x09\x0a: 1024 bytes' restore box 0 1 $'out\t\n'
check "under its own name" cmp $'out\t\n' aid
expect 2 'there is no command s\x08ing' $'s\bing'
expect 2 'there is no option --\x1b' --$'\x1b'
# Letters beyond ASCII stay as they are.
expect 5 "für Jörg is no store" list "für Jörg"
