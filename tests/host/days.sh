# shellcheck shell=bash disable=SC2034,SC2154
# Days far ahead: the box's day can't go back, so that a date typed wrong would shut out the other aids.
# Today has to stay today.
[ "$(date -u +%H%M)" != 2359 ] || sleep 61
# The date so many days from today.
from_today() {
    date -u -d "$1 days" +%F
}
# A store whose day 0 is so many days back, with an aid that was backed up on this day.
# clinic DAYS_BACK DAY
clinic() {
    store=box
    rm -rf box
    expect 0 "made" format box --blocks 8 --cells 4 --slots 40 --journal 40 --day-zero "$(from_today -"$1")"
    expect 0 "enrolled" enrol box 0 --keep 10
    expect 0 "enrolled" enrol box 1 --keep 10
    expect 0 "backup 1" backup box 0 aid --day "$2"
}
blocks AB >aid
clinic 10 "$(from_today -1)"

# A year too late, in both forms, by the commands that take a day.
late=$(from_today 365)
for command in "backup box 1 aid" "collect box" "retire box 1 --yes"; do
    for day in "--day $late" "--day-number 375" "--day $(from_today 2)" "--day-number 12"; do
        # shellcheck disable=SC2086
        expect 2 "is later than tomorrow by the clock. The box's day would become " $command $day
        check "says what would become of the other aids" grep -q "until then every other aid's backup would be refused" "$work/err"
        check "says what to do" grep -q "give --ahead if it is meant" "$work/err"
    done
done
expect 2 "$late is later than tomorrow by the clock. The box's day would become $late" backup box 1 aid --day "$late"
# The other aids go on: the box's day is what it was.
expect 0 "backup 1 of volume 1 on $(from_today 0)" backup box 1 aid
# Tomorrow is taken: there are clocks ahead of UTC.
expect 0 "on $(from_today 1)" backup box 1 aid --day "$(from_today 1)"
expect 0 "as of $(from_today 1)" collect box --day-number 11
# What is meant is done.
expect 0 "on $late" backup box 1 aid --day "$late" --ahead
expect 3 "refused 7: $(from_today 0) is before the box's day, $late" backup box 0 aid
clinic 10 "$(from_today -1)"
expect 0 "as of $late" collect box --day-number 375 --ahead

# More than 60 days after the box's day, though not after today: a store that was left for long is asked for as well.
clinic 100 "$(from_today -90)"
expect 0 "as of $(from_today -30)" collect box --day "$(from_today -30)"
clinic 100 "$(from_today -90)"
for command in "backup box 1 aid" "collect box" "retire box 1 --yes"; do
    # shellcheck disable=SC2086
    expect 2 "is more than 60 days after the box's day, $(from_today -90). The box's day would become" $command --day "$(from_today -29)"
    # shellcheck disable=SC2086
    expect 2 "is more than 60 days after the box's day" $command --day-number 71
    # by the clock alone, too
    # shellcheck disable=SC2086
    expect 2 "$(from_today 0) is more than 60 days after the box's day" $command
done
expect 0 "on $(from_today 0)" backup box 1 aid --ahead
expect 0 "on $(from_today 0)" backup box 0 aid
# 60 days after it is near enough.
clinic 100 "$(from_today -90)"
expect 0 "on $(from_today -30)" backup box 1 aid --day "$(from_today -30)"

# A box to which nothing was given has no day to compare with; the clock counts all the same.
rm -rf box
expect 0 "made" format box --blocks 8 --cells 4 --slots 40 --journal 40 --day-zero "$(from_today -300)"
expect 0 "enrolled" enrol box 0 --keep 10
expect 2 "later than tomorrow" backup box 0 aid --day "$(from_today 2)"
expect 0 "on $(from_today -20)" backup box 0 aid --day "$(from_today -20)"
# Day 0 is a day like others once a backup was made on it.
clinic 100 "$(from_today -100)"
expect 2 "is more than 60 days after the box's day, $(from_today -100)" collect box --day "$(from_today -39)"
expect 0 "as of" collect box --day "$(from_today -40)"

# A year, or any number, is no date, and a number is given by an option that can't be mistaken.
for number in 2026 12 0 99999; do
    expect 2 "--day $number is no date like 2026-01-31, from 1900 to 2999; for a number of days give --day-number" collect box --day $number
    expect 2 "--day $number is no date" backup box 0 aid --day $number
done
expect 2 "--day 2026-1-1 is no date like 2026-01-31, from 1900 to 2999" collect box --day 2026-1-1
check "nothing is said of numbers there" test "$(grep -c day-number "$work/err")" -eq 0
expect 2 "--day-number 2026-01-02 is no number" collect box --day-number 2026-01-02
expect 2 "--day-number -1 is no number" collect box --day-number=-1
expect 2 "give --day or --day-number, not both" collect box --day "$(from_today 0)" --day-number 3
expect 2 "list takes no --ahead" list box --ahead
# What --ahead lets through is the box's to refuse.
expect 3 "refused 7: day 60001 " collect box --day-number 60001 --ahead
expect 2 "is more than 65535 days after day 0" collect box --day 2999-12-31 --ahead
# A clock behind day 0.
rm -rf box
expect 0 "made" format box --blocks 8 --cells 4 --slots 40 --journal 40 --day-zero "$(from_today 3)"
expect 2 "today is before day 0 of the store, $(from_today 3); set the clock, or give --day" collect box
expect 2 "later than tomorrow" collect box --day-number 0
expect 0 "as of $(from_today 3)" collect box --day-number 0 --ahead
