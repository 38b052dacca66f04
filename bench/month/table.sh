# shellcheck shell=bash disable=SC2154
# The table of the month, in Markdown, from the times that run has noted.

# The median of the numbers in its input, times 1,000 and without a fraction.
median() {
    sort -n | awk '{ at[NR] = $1 } END { printf "%.0f", 500 * (at[int((NR + 1) / 2)] + at[int(NR / 2) + 1]) }'
}

# row TEXT FUNCTION ARGUMENT..: a line with what the function writes for each tool.
row() {
    local tool
    printf '| %s |' "$1"
    for tool in "${tools[@]}"; do
        printf ' %s |' "$("$2" "$tool" "${@:3}")"
    done
    printf '\n'
}

# Wall time, and user and system time together.
times_of() {
    local times=$work/times/$1.$2
    printf '%s (%s)' "$(cut -d ' ' -f 1 "$times" | median)" "$(awk '{ print $2 + $3 }' "$times" | median)"
}

count_of() {
    wc -l < "$work/times/${tools[0]}.$1"
}

sum_of() {
    local kind
    for kind in first later idle prune; do cat "$work/times/$1.$kind"; done | awk '{ wall += $1; cpu += $2 + $3 } END { printf "%.1f (%.1f)", wall, cpu }'
}

# A number with a comma at each thousand.
grouped() {
    sed ':again; s/\B[0-9]\{3\}\b/,&/; t again' <<< "$1"
}

bytes_of() {
    grouped "$(du --summarize --block-size=1 "$work/$1$2" | cut -f 1)"
}

title_of() {
    call "$1" title | paste -s -d ' '
}

dashes() {
    echo ---
}

# What was measured, above the table.
print_month() {
    local backups=$((kept * ${#volumes[@]})) image=$work/expected/volume-0.img
    echo "$days days of ${#volumes[@]} backups. $backups backups are kept at the end; as plain copies they are $(grouped $((backups * $(stat -c %s "$image")))) bytes."
    echo "aspenbox held $(grouped "$fullest") of $(grouped "$blocks") blocks at most, and used $(grouped "$(records_used)") of $(grouped "$records") records."
    echo "Load of the last 5 minutes, of which 1 is this run's: $(cut -d ' ' -f 2 /proc/loadavg) on $(nproc) processors."
    echo
}

print_table() {
    local age=$((($(date -d "${dates[days - 1]}" +%s) - $(date -d "${dates[oldest]}" +%s)) / 86400))
    print_month
    row "median in ms: wall (processor)" title_of
    row "---" dashes
    row "first backup of a volume ($(count_of first))" times_of first
    row "later backup of a volume ($(count_of later))" times_of later
    row "collect or prune, with backups to drop ($(count_of prune))" times_of prune
    row "collect or prune, with none to drop ($(count_of idle))" times_of idle
    row "one block as of $age days before ($(count_of block))" times_of block
    row "a volume as of $age days before ($(count_of volume))" times_of volume
    row "list the backups ($(count_of list))" times_of list
    row "start of the program ($(count_of start))" times_of start
    row "all backups and prunes of the month, **s**" sum_of
    row "bytes on disk at the end" bytes_of ""
    row "bytes beside it: cache" bytes_of -beside
}
