# shellcheck shell=bash
# The images of a file `backups`, as layout1 and layout2 have one. Each line of it has volume, day, letters and length, and what an
# upgrade makes of the backup: it stays, it ends by it, or it was gone before. `blocks` is that of lib.sh.

# The first so many bytes of blocks of these letters, or of blank ones: image LETTERS|- LENGTH
image() {
    case $1 in
    -) head -c "$2" /dev/zero ;;
    *) blocks "$1" | head -c "$2" ;;
    esac
}
