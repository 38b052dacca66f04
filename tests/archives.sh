# shellcheck shell=bash
# Where the archives of the library are. The scripts of this folder read this file from here.
#   ASPEN_LIB_DIR  their folder; if unset it is ../target/staticlib, and they are built if missing
# Sets `archives`, the files that archives.txt names.
mapfile -t archive_names <archives.txt

# The first archive that isn't in ASPEN_LIB_DIR.
missing_archive() {
    local name
    for name in "${archive_names[@]}"; do
        if [ ! -f "$ASPEN_LIB_DIR/lib$name.a" ]; then
            echo "lib$name.a"
            return
        fi
    done
}

if [ -z "${ASPEN_LIB_DIR:-}" ]; then
    mkdir -p ../target/staticlib
    ASPEN_LIB_DIR=$(cd ../target/staticlib && pwd)
    if [ -n "$(missing_archive)" ]; then
        echo "building the archives, which takes some minutes" >&2
        ../scripts/archives
    fi
fi
if [ -n "$(missing_archive)" ]; then
    echo "no $(missing_archive) in $ASPEN_LIB_DIR: scripts/archives builds the archives" >&2
    exit 1
fi
ASPEN_LIB_DIR=$(cd "$ASPEN_LIB_DIR" && pwd)
export ASPEN_LIB_DIR
archives=("${archive_names[@]/#/$ASPEN_LIB_DIR/lib}")
archives=("${archives[@]/%/.a}")
