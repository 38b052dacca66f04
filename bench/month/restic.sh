# shellcheck shell=bash disable=SC2154
# restic without compression. It always encrypts, so it has a password. It has no option for the size of chunks.

# in_restic TOOL ARGUMENT..: restic on this store, with its cache beside it.
in_restic() {
    RESTIC_PASSWORD=month RESTIC_CACHE_DIR=$work/$1-beside RESTIC_REPOSITORY=$work/$1 RESTIC_COMPRESSION=off restic "${@:2}"
}

restic_title() {
    restic version | cut -d ' ' -f 1-2
}

restic_make() {
    in_restic "$1" init --repository-version 2
}

restic_backup() {
    (cd "$work/aids" && in_restic "$1" backup --time "${dates[$3]} 12:00:00" --tag "volume-$2-${dates[$3]}" "volume-$2.img")
}

# It keeps so many of each path.
restic_prune() {
    in_restic "$1" forget --keep-last "$kept" --prune
}

restic_list() {
    in_restic "$1" snapshots --compact
}

restic_start() {
    restic version
}

restic_kept() {
    in_restic "$1" snapshots --json | grep -o '"short_id"' | wc -l
}

# It restores no less than a file.
restic_block() {
    in_restic "$1" dump --tag "volume-$2-${dates[$3]}" latest "volume-$2.img" | only_block "$4"
}

restic_volume() {
    in_restic "$1" restore --tag "volume-$2-${dates[$3]}" --target "$4" latest
}
