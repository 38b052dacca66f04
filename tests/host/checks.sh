# shellcheck shell=bash disable=SC2154
# The checks of the program aspenbox. ../run reads this file, and has `check`, `counted`, `last_counts` and `scratch`.

# Runs sections with a program: host_run NAME "PROGRAM" [SECTION..]
host_run() {
    echo "aspenbox, $1:"
    shift
    counted "$last_counts" host/run "$@"
}

host_program() {
    check "aspenbox builds" ../scripts/host
    host_run plain "$(cd .. && pwd)/target/host/aspenbox"
    check "the story of make demo" ../scripts/story ../target/host/aspenbox
    check "aspenbox builds with its calls counted" ../scripts/host "$scratch/aspenbox.counted" tests/host/counted.c \
        -Wl,--wrap=aspen_restore,--wrap=aspen_read
    host_run counted "$scratch/aspenbox.counted" calls
    check "aspenbox builds for a disk that changes its book" ../scripts/host "$scratch/aspenbox.spoiled" tests/host/spoiled.c \
        -Wl,--wrap=rename
    host_run spoiled "$scratch/aspenbox.spoiled" spoiled
    # Statuses that aspenbox itself doesn't have.
    export ASAN_OPTIONS=exitcode=99 UBSAN_OPTIONS=exitcode=99
    check "aspenbox builds with sanitizers" ../scripts/host "$scratch/aspenbox.sanitized" -g \
        -fsanitize=address,undefined -fno-sanitize-recover=all
    # Every bit of a store takes long with it.
    ASPEN_EVERY=101 host_run sanitized "$scratch/aspenbox.sanitized"
    if command -v valgrind >/dev/null; then
        check "aspenbox builds for valgrind" ../scripts/host "$scratch/aspenbox.valgrind" -gdwarf-4
        host_run valgrind "valgrind --quiet --error-exitcode=99 --leak-check=full \
            $scratch/aspenbox.valgrind" every_command
    else
        echo "not run: aspenbox under valgrind (not installed)"
    fi
}

# Program and manual page below the folder that make install was given.
host_installed() {
    "$scratch/dest/opt/aspen/bin/aspenbox" --version &&
        cmp ../man/aspenbox.1 "$scratch/dest/opt/aspen/share/man/man1/aspenbox.1"
}
