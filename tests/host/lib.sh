# shellcheck shell=bash disable=SC2154
# What the sections share. `run` reads this file and has `program`, `work` and `section`.
passed=0
failed=0
store=box # the store that a call may change
input=/dev/null # the standard input of calls
# shellcheck disable=SC2034
entry=21 # bytes of a block's entry in the book; the first one is at 36

pass() {
    passed=$((passed + 1))
}

complain() {
    failed=$((failed + 1))
    echo "failed: $section: $1"
}

# A command that has to succeed: check NAME COMMAND..
check() {
    local name=$1
    shift
    if "$@" >"$work/log" 2>&1; then
        pass
    else
        cat "$work/log"
        complain "$name"
    fi
}

# All that is in the store, by content.
content() {
    [ ! -d "$store" ] || find "$store" -type f -exec sha256sum {} + | sort
}

# Takes from a store what those of the first version lack: the seal behind the book, with digest and lengths, and the lock's
# fourth line. Their books had layout 1, though; see upgrade.sh. age STORE
age() {
    # shellcheck disable=SC2086
    $program book "$1" >"$work/bare" </dev/null
    cat "$work/bare" >"$1/book"
    head -3 "$1/lock" >"$work/three"
    cat "$work/three" >"$1/lock"
}

# Runs the program; its answer is then in $work/out and $work/err, its status in `status`.
box() {
    status=0
    # shellcheck disable=SC2086
    $program "$@" >"$work/out" 2>"$work/err" <"$input" || status=$?
}

# expect STATUS TEXT ARGUMENT..: the status, and the text in what is printed. A call that ends with 2 or more leaves the
# store as it was.
expect() {
    local wanted=$1 text=$2 before
    shift 2
    before=$(content)
    box "$@"
    if [ "$status" -ne "$wanted" ]; then
        cat "$work/out" "$work/err"
        complain "aspenbox $* ended with $status, not $wanted"
    elif ! grep -qaF -- "$text" "$work/out" "$work/err"; then
        cat "$work/out" "$work/err"
        complain "aspenbox $* doesn't say: $text"
    elif [ "$wanted" -ge 2 ] && [ "$before" != "$(content)" ]; then
        complain "aspenbox $* changed the store"
    else
        pass
    fi
}

# expect_json STATUS TEST ARGUMENT..: the status, and a test in Python on the one object `o` that is printed. The tests are
# run together by json_report.
expect_json() {
    local wanted=$1 test=$2
    shift 2
    expect "$wanted" "" "$@" --json
    check "aspenbox $* --json prints one line and nothing else" one_line
    printf '%s\n' "$test" >>"$work/json_tests"
    cat "$work/out" >>"$work/json_answers"
}

one_line() {
    [ "$(wc -l <"$work/out")" -eq 1 ] && [ ! -s "$work/err" ]
}

json_report() {
    local line
    [ -f "$work/json_tests" ] || return 0
    if ! command -v python3 >/dev/null; then
        echo "not run: JSON answers read by python3 (not installed)"
        return 0
    fi
    while IFS= read -r line; do
        if [ "$line" = good ]; then pass; else complain "JSON: $line"; fi
    done < <(python3 - "$work/json_tests" "$work/json_answers" <<'PYTHON'
import json, sys
for test, answer in zip(*(open(name, encoding="utf-8") for name in sys.argv[1:])):
    try:
        good = eval(test, {"o": json.loads(answer)}) is True
    except Exception as error:
        good = False
    print("good" if good else f"{test.strip()} on {answer.strip()}")
PYTHON
    )
}

# Blocks of 512 bytes, one of each letter: blocks ABC
blocks() {
    local i
    for ((i = 0; i < ${#1}; i++)); do
        head -c 512 /dev/zero | tr '\0' "${1:i:1}"
    done
}

# Writes bytes into a file: poke FILE OFFSET BYTE.. (in hexadecimal)
poke() {
    local file=$1 at=$2
    shift 2
    # shellcheck disable=SC2059
    printf "$(printf '\\x%s' "$@")" | dd of="$file" bs=1 seek="$at" conv=notrunc status=none
}

# A store of the cases' sizes with day 0 on 2026-01-01, where volume 0 keeps 10 days and volume 1 keeps 3.
small_store() {
    store=$1
    rm -rf "$store"
    expect 0 "made the store $store" format "$store" --blocks 4 --cells 4 --slots 6 --journal 8 --day-zero 2026-01-01
    expect 0 "enrolled volume 0" enrol "$store" 0 --keep 10
    expect 0 "enrolled volume 1" enrol "$store" 1 --keep 3
}

# Whether what was printed last is in this file, byte for byte.
printed() {
    cmp "$work/out" "$1"
}

same() {
    [ "$1" = "$2" ] || {
        echo "$1"
        echo "is not"
        echo "$2"
        return 1
    }
}
