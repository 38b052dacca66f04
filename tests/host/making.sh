# shellcheck shell=bash disable=SC2154
# How the stores of older layouts were made. layout1/make and layout2/make read this file, and have `here`, which is their folder.
# shellcheck source-path=SCRIPTDIR source=lib.sh
. "$here/../lib.sh"
# shellcheck source-path=SCRIPTDIR source=images.sh
. "$here/../images.sh"

# Makes the store of the folder, and records what the program says of it: make_store PROGRAM "SIZE.." VOLUME:DAYS..
make_store() {
    local program sizes image volume day letters length command
    program=$(realpath "$1")
    read -ra sizes <<<"$2"
    shift 2
    image=$(mktemp)
    cd "$here" || return
    rm -rf box
    "$program" format box "${sizes[@]}" --day-zero 2026-01-01
    for volume in "$@"; do
        "$program" enrol box "${volume%:*}" --keep "${volume#*:}"
    done
    while read -r volume day letters length _; do
        image "$letters" "$length" >"$image"
        "$program" backup box "$volume" "$image" --day-number "$day"
    done <backups
    rm "$image"
    "$program" collect box --day-number 30
    for command in list audit tally scrub; do
        "$program" $command box >"said.$command"
    done
    # How many days ago a backup was depends on the day.
    "$program" status box --warn 100 | sed 's/, [0-9]* days ago$//' >said.status
}
