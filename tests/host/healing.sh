# shellcheck shell=bash disable=SC2034,SC2154
# Blocks of the pool that rotted, and images that still have their bytes.
# A store with the image AB, and rot in both of its blocks.
rotten() {
    small_store box
    expect 0 "2 of 2" backup box 0 aid --day 2026-01-02
    cp box/pool sound
    poke box/pool 7 00
    poke box/pool 1000 00
    expect 1 "2 held blocks hashed, 2 damaged" scrub box
    cp box/pool rotted
}
# healed BLOCK..: which blocks were said to be; nothing else was said on standard error
healed() {
    local block wanted=""
    for block in "${@:2}"; do
        wanted+="aspenbox: note: block $block of the pool was damaged and has its bytes back from $1"$'\n'
    done
    same "$(cat "$work/err")" "${wanted%$'\n'}"
}
blocks AB >aid
blocks xA >other

# The aid itself, whose image hasn't changed: nothing is sent, and the pool is whole again.
rotten
expect 0 "backup 2 of volume 0 on 2026-01-03: 0 of 2 blocks sent, 0 new" backup box 0 aid --day 2026-01-03
check "says what was healed" healed aid 0 1
check "the pool is as it was" cmp box/pool sound
expect 0 "0 damaged" scrub box
expect 0 "restored" restore box 0 1 out --force
check "restored" cmp out aid
expect 0 "0 of 2" backup box 0 aid --day 2026-01-04
check "once healed nothing is said" healed aid

# Another aid that has one of the blocks, which was refused by 11.
rotten
expect 0 "backup 1 of volume 1 on 2026-01-03: 2 of 2 blocks sent, 1 new" backup box 1 other --day 2026-01-03
check "says what was healed" healed other 0
expect 1 "3 held blocks hashed, 1 damaged" scrub box
check "the other one stays" grep -q '^block 1 is damaged: volume 0 LBN 1$' "$work/out"
expect 0 "restored" restore box 1 1 out --force
check "restored" cmp out other
expect 1 "LBN 1 is damaged" restore box 0 1 out --force
check "the block before it is right" cmp -n 512 out aid

# A backup that is refused writes nothing, though it could heal.
rotten
blocks ABCDE >long
blocks CDAE >full
expect 3 "refused 7" backup box 0 aid --day 2026-01-02
expect 3 "refused 12" backup box 1 full --day 2026-01-03
expect 2 "later than tomorrow" backup box 0 aid --day 2126-01-01
expect 2 "longer than the 4 blocks" backup box 0 long --day 2026-01-03
expect 3 "refused 5" backup box 2 aid --day 2026-01-03
check "the pool is as it was" cmp box/pool rotted

# An image with the very bytes of the rot has another fingerprint, and heals nothing.
head -c 1024 box/pool >rotted_image
expect 1 "2 damaged" scrub box --heal rotted_image
check "nothing was written" cmp box/pool rotted

# scrub --heal: from an image that no longer is a volume's, longer than one, or from several.
blocks QA >first
blocks ZZZZZZZB >second
blocks Q >neither
expect 1 "2 held blocks hashed, 2 damaged" scrub box --heal neither
check "nothing was written" cmp box/pool rotted
expect 1 "2 held blocks hashed, 1 damaged" scrub box --heal first neither
check "what no image has stays damaged" grep -q '^block 1 is damaged: volume 0 LBN 1$' "$work/out"
check "says what was healed" healed first 0
cp rotted box/pool
expect 0 "2 held blocks hashed, 0 damaged" scrub box --heal neither first second
check "says from which image" same "$(sed 's/.*block \(.\) .* from/\1/' "$work/err")" $'0 first\n1 second'
check "the pool is as it was" cmp box/pool sound
expect 0 "0 damaged" scrub box --heal first second
check "nothing is left to heal" healed first
# From standard input.
cp rotted box/pool
input=aid
expect 0 "0 damaged" scrub box --heal -
input=/dev/null
check "the pool is as it was" cmp box/pool sound

# A block of an older backup, a short last block, and rot where nothing is held.
small_store box
head -c 700 /dev/urandom >aid2
cp aid2 older
expect 0 "2 of 2" backup box 0 aid2 --day 2026-01-02
printf 'a new word' | dd of=aid2 bs=1 seek=600 conv=notrunc status=none
expect 0 "1 of 2" backup box 0 aid2 --day 2026-01-03
cp box/pool sound
poke box/pool 520 "$(printf '%02x' $((0x$(xxd -p -s 520 -l 1 box/pool) ^ 255)))"
expect 1 "block 1 is damaged: in older backups only" scrub box
expect 1 "1 damaged" scrub box --heal aid2
expect 0 "0 damaged" scrub box --heal older
check "the pool is as it was" cmp box/pool sound
poke box/pool 1600 41
cp box/pool free
expect 0 "0 damaged" scrub box --heal older aid2
check "a free block is left alone" cmp box/pool free

# Many rotted blocks at once.
store=many
expect 0 "made" format many --blocks 300 --cells 256 --slots 6 --journal 600 --day-zero 2026-01-01
expect 0 "enrolled" enrol many 0 --keep 10
head -c 131072 /dev/urandom >aid3
expect 0 "256 of 256" backup many 0 aid3 --day 2026-01-02
cp many/pool sound
head -c 65536 /dev/urandom | dd of=many/pool bs=512 seek=64 conv=notrunc status=none
expect 1 "256 held blocks hashed, 128 damaged" scrub many
expect_json 0 'o["healed"] == 128 and len(o["notes"]) == 128 and o["sent"] == 0' backup many 0 aid3 --day 2026-01-03
check "the pool is as it was" cmp many/pool sound

# JSON.
rotten
expect_json 1 'o["healed"] == 1 and o["held"] == 2 and [d["block"] for d in o["damaged"]] == [1] and o["notes"] == ["block 0 of the pool was damaged and has its bytes back from first"]' \
    scrub box --heal first
cp rotted box/pool
expect_json 0 '(o["number"], o["sent"], o["taken"], o["healed"]) == (1, 2, 1, 1) and o["notes"] == ["block 0 of the pool was damaged and has its bytes back from other"]' \
    backup box 1 other --day 2026-01-03
expect_json 0 'o["healed"] == 0 and "notes" not in o' backup box 1 other --day 2026-01-04

# What scrub takes.
expect 2 "--heal wants images to heal from; see aspenbox scrub --help" scrub box --heal
expect 2 "images are for --heal; see aspenbox scrub --help" scrub box aid
expect 2 "can't open none: No such file" scrub box --heal aid none
expect 2 "box is a folder; name a file" scrub box --heal box
mapfile -t names < <(yes aid | head -65)
expect 2 "one word too many" scrub box --heal "${names[@]}"
expect 0 "0 damaged" scrub box --heal "${names[@]:1}"
