# shellcheck shell=bash disable=SC2034,SC2154
# How often restore asks the library for blocks, each time with a check of the whole book: twice where the backup has all that
# is asked for, and never more than about twice for each LBN. The program is one that counts (counted.c).
export ASPEN_CALLS=$work/calls
# asks MOST ARGUMENT..: a restore takes no more than so many calls, none of them for a single block
asks() {
    local most=$1 counts
    shift
    rm -f "$ASPEN_CALLS"
    expect "${wanted:-0}" "restored" restore "$@" out --force
    read -ra counts <"$ASPEN_CALLS"
    check "restore $*: ${counts[0]} calls where $most are enough" test "${counts[0]}" -gt 0 -a "${counts[0]}" -le "$most"
    check "restore $*: no read" same "${counts[1]}" 0
}
store=large
expect 0 "made" format large --blocks 4096 --cells 1024 --slots 8 --journal 8192 --day-zero 2026-01-01
expect 0 "enrolled" enrol large 0 --keep 50
head -c 524288 /dev/urandom >image
head -c 100000 image >short
expect 0 "196 of 196" backup large 0 short --day-number 1
expect 0 "829 of 1024 blocks sent, 829 new" backup large 0 image --day-number 2
expect 0 "1 of 196 blocks sent, 0 new" backup large 0 short --day-number 3
: >empty
expect 0 "0 of 0" backup large 0 empty --day-number 4
for number in 1 2 3 4; do
    asks 2 large 0 $number
done
asks 2 large 0 2 --lbns 100-900
asks 2 large 0 2 --lbns 1023
# Backup 1 has LBNs 0 to 195; the current map says nothing of the others.
asks 20 large 0 1 --lbns 190-205
asks 850 large 0 1 --lbns 0-1023
asks 825 large 0 1 --lbns 200-1023

# A first store has no lengths noted. What the current map lacks isn't asked for.
store=first
expect 0 "made" format first --blocks 300 --cells 1024 --slots 8 --journal 400 --day-zero 2026-01-01
expect 0 "enrolled" enrol first 0 --keep 50
expect 0 "196 of 196" backup first 0 short --day-number 1
age first
asks 4 first 0 1
asks 4 first 0 1 --lbns 0-1023
asks 2 first 0 1 --lbns 0-195
asks 1 first 0 1 --lbns 196-1023

# A retired volume has no current map to go by. What lies past the image's length isn't asked for.
store=large
expect 0 "retired" retire large 0 --day-number 5 --yes
for number in 1 2 3 4; do
    asks 2 large 0 $number
done
asks 850 large 0 1 --lbns 0-1023
store=first
expect 0 "retired" retire first 0 --day-number 2 --yes
asks 850 first 0 1
check "all of it" cmp out <(cat short && head -c $((196 * 512 - 100000)) /dev/zero)

# Every second LBN of a small volume has a block, as pokes into book and journal leave it.
store=holes
expect 0 "made" format holes --blocks 40 --cells 64 --slots 8 --journal 40 --day-zero 2026-01-01
expect 0 "enrolled" enrol holes 0 --keep 50
blocks ABCDEFGHIJKLMNOPQRSTUVWXYZabcdef >image
expect 0 "32 of 32" backup holes 0 image --day-number 1
age holes
maps=$((36 + entry * 40))
records=$((maps + 16 * 64 + 8 * 8))
for ((record = 31; record > 0; record--)); do
    poke holes/book $((records + 6 * record)) "$(printf '%02x' $((2 * record)))"
    poke holes/book $((maps + 2 * record)) ff ff
    poke holes/book $((maps + 4 * record)) "$(printf '%02x' $record)" 00
done
expect 0 "sound" audit holes
asks 65 holes 0 1
check "every second LBN" cmp out <(blocks A.B.C.D.E.F.G.H.I.J.K.L.M.N.O.P.Q.R.S.T.U.V.W.X.Y.Z.a.b.c.d.e.f | tr . '\0')
# The same of a book at fault, which is asked for each LBN.
poke holes/book 36 05
expect 1 "unsound" audit holes
wanted=1
asks 128 holes 0 1
check "every second LBN of a book at fault" cmp out <(blocks A.B.C.D.E.F.G.H.I.J.K.L.M.N.O.P.Q.R.S.T.U.V.W.X.Y.Z.a.b.c.d.e.f | tr . '\0')
asks 2 holes 0 1 --lbns 63-63
unset wanted ASPEN_CALLS
