# shellcheck shell=bash disable=SC2154
# borg as it comes, whose chunks have some 2 MiB, and as borg512 with chunks as small as a block of aspenbox. Nothing is encrypted or compressed.
export BORG_UNKNOWN_UNENCRYPTED_REPO_ACCESS_IS_OK=yes

borg_title() {
    borg --version && if [ "$1" = borg512 ]; then echo "with chunks of 512 bytes"; fi
}

# in_borg TOOL ARGUMENT..: borg on this store, with its cache beside it.
in_borg() {
    BORG_BASE_DIR=$work/$1-beside BORG_REPO=$work/$1 borg "${@:2}"
}

borg_make() {
    in_borg "$1" init --encryption none
}

# Archives with the same second would count as one below, so each volume has its minute.
borg_backup() {
    local chunks=()
    [ "$1" = borg ] || chunks=(--chunker-params 'fixed,512')
    (cd "$work/aids" &&
        in_borg "$1" create --compression none "${chunks[@]}" --timestamp "${dates[$3]}T12:0$2:00" "::volume-$2-${dates[$3]}" "volume-$2.img")
}

# One command for all volumes is enough, since each has a backup on every day.
borg_prune() {
    in_borg "$1" prune --keep-last $((kept * ${#volumes[@]})) && in_borg "$1" compact
}

borg_list() {
    in_borg "$1" list --short
}

borg_start() {
    borg --version
}

borg_kept() {
    borg_list "$1" | wc -l
}

# It restores no less than a file.
borg_block() {
    in_borg "$1" extract --stdout "::volume-$2-${dates[$3]}" "volume-$2.img" | only_block "$4"
}

borg_volume() {
    (cd "$4" && in_borg "$1" extract "::volume-$2-${dates[$3]}" "volume-$2.img")
}
