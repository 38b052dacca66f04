# shellcheck shell=bash disable=SC2154
# aspenbox, with all sizes at their largest.
aspenbox=$PWD/target/host/aspenbox
blocks=4096
records=16384

aspenbox_title() {
    "$aspenbox" --version
}

aspenbox_make() {
    local v
    "$aspenbox" format "$work/$1" --blocks "$blocks" --cells 1024 --slots 1024 --journal "$records" --day-zero "$first_date" || return
    for v in "${volumes[@]}"; do
        "$aspenbox" enrol "$work/$1" "$v" --keep "$keep_days" || return
    done
}

aspenbox_backup() {
    "$aspenbox" backup "$work/$1" "$2" "$work/aids/volume-$2.img" --day "${dates[$3]}"
}

aspenbox_prune() {
    "$aspenbox" collect "$work/$1" --day "${dates[$2]}"
}

aspenbox_list() {
    "$aspenbox" list "$work/$1"
}

aspenbox_start() {
    "$aspenbox" --version
}

# A backup has a line that begins with its number.
aspenbox_kept() {
    aspenbox_list "$1" | grep '^ *[0-9]' | grep -cv 'no longer kept'
}

aspenbox_block() {
    "$aspenbox" read "$work/$1" "$2" $(($3 + 1)) "$4"
}

aspenbox_volume() {
    "$aspenbox" restore "$work/$1" "$2" $(($3 + 1)) "$4/volume-$2.img"
}

# Its sizes are fixed, so the table says how near to them the month comes.
fullest=0
note_fullest() {
    local held
    held=$("$aspenbox" tally "$work/aspenbox" | sed -n 's/^held //p')
    [ "$held" -le "$fullest" ] || fullest=$held
}

records_used() {
    aspenbox_list aspenbox | awk '/^ *[0-9]/ { used += $4 } END { print used }'
}
