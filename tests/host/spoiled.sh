# shellcheck shell=bash disable=SC2034,SC2154
# An upgrade whose new book doesn't come back from the disk as it was written, by a program that changes it (spoiled.c).
store=box
for layout in 1 2; do
    old=$here/layout$layout/box
    rm -rf box
    cp -r "$old" box
    box upgrade box --force
    check "status 4" same "$status" 4
    check "it says so" grep -qF "box/book doesn't read back as it was written; put box/book.$layout in its place, which is the old one" "$work/err"
    check "the old book is kept" cmp "box/book.$layout" "$old/book"
    check "for its owner alone" same "$(stat -c %a "box/book.$layout")" 600
    mv "box/book.$layout" box/book
    check "and back in its place" diff -r box "$old"
done
