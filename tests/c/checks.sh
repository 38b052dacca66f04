# shellcheck shell=bash disable=SC2154
# The checks of the C side. ../run reads this file, and has `check`, `scratch` and `archives`. A
# function with its body in parentheses keeps its variables to itself.
: "${CC:=gcc}" "${CXX:=g++}"
warnings=(-Wall -Wextra -Werror -pedantic)

# The sources of a program, by name.
units_of() {
    case $1 in
    aid) printf '%s\n' aid sizes texts writer pieces writing ;;
    engine)
        printf '%s\n' engine form cases format_audit count views refusals lists changes alike \
            restore retire convert convert_2_3 converting play
        ;;
    esac
    printf '%s\n' check buffer books box calls
}

# Compiles the sources of all programs: compiled VARIANT COMPILER..
compiled() (
    objects=$scratch/$1
    shift
    mkdir -p "$objects" || exit 1
    for source in c/*.c; do
        "$@" "${warnings[@]}" -I../include -c "$source" \
            -o "$objects/$(basename "$source" .c).o" || exit 1
    done
)

# Links a program of a variant and runs it under a command: runs PROGRAM VARIANT "UNDER" LINKER..
runs() (
    program=$1
    objects=$scratch/$2
    under=$3
    shift 3
    mapfile -t units < <(units_of "$program" | sed "s|.*|$objects/&.o|")
    # shellcheck disable=SC2086
    "$@" "${units[@]}" "${archives[@]}" -o "$objects/$program" && $under "$objects/$program"
)

# One way to build the programs and run them: variant NAME "UNDER" "LINKER" "COMPILER"
variant() {
    local program
    # shellcheck disable=SC2086
    check "C sources, $1" compiled "$1" $4
    for program in aid engine; do
        # shellcheck disable=SC2086
        check "C program $program, $1" runs $program "$1" "$2" $3
    done
}

# The header in an empty program, by a compiler; its inline functions may go unused there.
is_included() {
    echo '#include <aspen.h>' | "$@" "${warnings[@]}" -I../include -fsyntax-only -
}

# The header's version is that of the pkg-config file.
same_version() (
    version=$(sed -n 's/^Version: //p' ../aspen.pc.in)
    [ -n "$version" ] && grep -x "#define ASPEN_VERSION \"$version\"" ../include/aspen.h
)

# What the archives need from outside: what a compiler asks of every environment, and nothing else.
needs_little() {
    nm -u "${archives[@]}" | awk 'NF == 2 && $2 != "memcpy" && $2 != "memset" { print; many++ } END { exit many > 0 }'
}

# The guards see writes outside the buffers. Without them valgrind sees the reads too.
c_programs() {
    local sanitize="-fsanitize=address,undefined -fno-sanitize-recover=all"
    local under="valgrind --quiet --error-exitcode=1 --leak-check=full"
    check "header as C99" is_included "$CC" -std=c99 -x c
    check "header as C++11" is_included "$CXX" -std=c++11 -x c++
    check "version of the header" same_version
    check "names that the archives need from outside" needs_little
    variant c99 "" "$CC" "$CC -std=c99"
    variant c++11 "" "$CXX" "$CXX -std=c++11 -x c++"
    variant sanitized "" "$CC $sanitize" "$CC -std=c99 -g $sanitize"
    if command -v valgrind >/dev/null; then
        variant valgrind "$under" "$CC" "$CC -std=c99 -gdwarf-4 -DGUARD=0"
    else
        echo "not run: C programs under valgrind (not installed)"
    fi
}

# The program in the manual page.
example_compiles() {
    sed -e '1,/^\.SH EXAMPLE/d' -e '/^\./d' -e 's/\\e/\\/g' ../man/aspen.3 >"$scratch/example.c"
    "$CC" -std=c99 "${warnings[@]}" -I../include -c "$scratch/example.c" -o "$scratch/example.o"
}

example_runs() {
    "$CC" "$scratch/example.o" "${archives[@]}" -o "$scratch/example" &&
        [ "$("$scratch/example")" = "backup 1: good morning" ]
}

renders() (
    warned=$(groff -man -Tutf8 -ww -z ../man/aspen.3 2>&1)
    echo "$warned"
    [ -z "$warned" ]
)

c_manual() {
    check "manual page agrees with the header" c/manual ../include/aspen.h ../man/aspen.3
    check "manual page's example compiles" example_compiles
    check "manual page's example runs" example_runs
    if command -v groff >/dev/null; then
        check "manual page renders" renders
    else
        echo "not run: manual page renders (no groff)"
    fi
}

# make GOAL for a folder of its own
makes() {
    make --no-print-directory -C .. "$1" DESTDIR="$scratch/dest" PREFIX=/opt/aspen \
        ARCHIVE_DIR="$ASPEN_LIB_DIR"
}

# A program, with nothing of the library but what is installed.
uses_installed() (
    export PKG_CONFIG_LIBDIR="$scratch/dest/opt/aspen/lib/pkgconfig"
    export PKG_CONFIG_SYSROOT_DIR="$scratch/dest"
    flags=$(pkg-config --cflags --libs aspen) || exit 1
    mapfile -t units < <(units_of "$1" | sed 's|.*|c/&.c|')
    # shellcheck disable=SC2086
    "$CC" -std=c99 "${warnings[@]}" "${units[@]}" $flags -o "$scratch/uses_installed" &&
        "$scratch/uses_installed"
)

# Everything that the README says is installed is there.
is_installed() (
    cd "$scratch/dest/opt/aspen" || exit 1
    for name in "${archive_names[@]}"; do
        [ -f "lib/aspen/lib$name.a" ] || exit 1
    done
    [ -f include/aspen.h ] && [ -f share/man/man3/aspen.3 ]
)

# The functions in the manual page's synopsis, and nothing else, have a page that leads there.
has_links() (
    cd "$scratch/dest/opt/aspen/share/man" || exit 1
    sed -n '/^\.SH SYNOPSIS/,/^\.SH DESCRIPTION/p' man3/aspen.3 |
        grep -o 'aspen_[a-z0-9_]*(' | tr -d '(' | sort >"$scratch/functions"
    grep -lx '\.so man3/aspen\.3' man3/aspen_*.3 |
        sed 's|man3/\(.*\)\.3|\1|' | sort >"$scratch/links"
    grep -x aspen_backup "$scratch/links" && diff "$scratch/functions" "$scratch/links"
)

# A page of somebody else's stays.
uninstalls() (
    other=$scratch/dest/opt/aspen/share/man/man3/aspen_other.3
    echo 'another page' >"$other"
    makes uninstall && [ "$(find "$scratch/dest" -type f)" = "$other" ]
)

c_install() {
    local program
    check "make install" makes install
    check "files installed" is_installed
    check "manual pages of the functions" has_links
    if command -v pkg-config >/dev/null; then
        for program in aid engine; do
            check "program $program from the installed files" uses_installed $program
        done
    else
        echo "not run: programs from the installed files (no pkg-config)"
    fi
    check "aspenbox as installed" host_installed
    check "make uninstall" uninstalls
}
