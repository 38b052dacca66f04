# shellcheck shell=bash disable=SC2034,SC2154
# What comes back is what was sent, byte for byte.
store=box
expect 0 "made" format box --blocks 300 --cells 64 --slots 20 --journal 400 --day-zero 2026-01-01
expect 0 "enrolled" enrol box 3 --keep 5
head -c 30000 /dev/urandom >image.1
cp image.1 image
expect 0 "59 of 59 blocks sent, 59 new" backup box 3 image --day-number 1
cp image.1 image.2
printf 'a changed word' | dd of=image.2 bs=1 seek=5000 conv=notrunc status=none
head -c 2768 /dev/urandom >>image.2
cp image.2 image
expect 0 "7 of 64 blocks sent, 7 new" backup box 3 image --day-number 2
expect 0 "0 of 64 blocks sent, 0 new" backup box 3 image --day-number 3
expect 0 "restored backup 1 of volume 3 to out.1: 30000 bytes, 59 blocks" restore box 3 1 out.1
for number in 2 3; do
    expect 0 "restored backup $number of volume 3 to out.$number: 32768 bytes, 64 blocks" restore box 3 $number out.$number
done
check "backup 1, no more than its own length" cmp out.1 image.1
check "backup 2" cmp out.2 image.2
check "backup 3" cmp out.3 image.2

expect 0 "" read box 3 2 9
check "one block of backup 2" printed <(dd if=image.2 bs=512 skip=9 count=1 status=none)
expect 0 "" read box 3 1 9
check "one block of backup 1" printed <(dd if=image.1 bs=512 skip=9 count=1 status=none)

# Where the volume goes.
echo "something" >mine
expect 2 "mine is there already; name another file, or replace it with --force" restore box 3 2 mine
check "mine is as it was" same "$(cat mine)" something
expect 0 "restored" restore box 3 2 mine --force
check "replaced with --force" cmp mine image.2
: >empty
expect 0 "restored" restore box 3 2 empty
check "an empty file is replaced" cmp empty image.2
expect 0 "restored backup 2" restore box 3 2 -
check "standard output" printed image.2
expect 2 "/dev/null is no regular file; name one, or - for standard output" restore box 3 2 /dev/null
expect 2 "can't create nowhere/out.aspenbox.new: No such file" restore box 3 2 nowhere/out
expect 2 "box is a folder; name a file" restore box 3 2 box
expect 2 "box is a folder; name a file" restore box 3 2 box --force
expect 2 "can't be standard output" restore box 3 2 - --json
check "no temporary file is left" same "$(find . -name '*.new*')" ""

# What a restore that was cut off left is removed; what another one is writing isn't.
echo "half a volume" >left.aspenbox.new
expect 0 "restored" restore box 3 2 left
check "restored beside what was left" cmp left image.2
echo "half a volume" >busy.aspenbox.new
exec 9<busy.aspenbox.new
flock 9
expect 4 "can't create busy.aspenbox.new: File exists" restore box 3 2 busy
check "what is being written is left alone" same "$(cat busy.aspenbox.new)" "half a volume"
exec 9<&-
expect 0 "restored" restore box 3 2 busy
check "no temporary file stays" same "$(find . -name '*.new*')" ""

# A disk that takes no more: here files may not grow past 1,024 bytes.
limited() {
    (
        trap '' XFSZ
        ulimit -f 1
        box "$@"
        echo "$status" >"$work/status"
    )
    cat "$work/status"
}
before=$(content)
check "status of a restore on a full disk" same "$(limited restore box 3 2 cut)" 4
check "its message" grep -q "can't write cut.aspenbox.new: File too large" "$work/err"
check "no half of a file is left" same "$(find . -name 'cut*')" ""
check "status of a call on a full disk" same "$(limited enrol box 4 --keep 5)" 4
check "its message" grep -q "can't write box/book.new: File too large" "$work/err"
check "the store is as it was" same "$(content)" "$before"

# An answer that can't be printed.
status=0
# shellcheck disable=SC2086
$program read box 3 2 9 >/dev/full 2>"$work/err" || status=$?
check "status of a full output" same "$status" 4
check "message of a full output" grep -q "answer can't be printed: No space left" "$work/err"
