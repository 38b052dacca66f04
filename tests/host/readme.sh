# shellcheck shell=bash disable=SC2034,SC2154
# The lines of README's first backup and restore, but for the first, which builds.
sed -n '/^## A first backup/,/^## /s/^    //p' "$here/../../README.md" >lines
check "ten lines" same "$(wc -l <lines)" 10
cat >lines.sh <<'END'
set -euo pipefail
aspenbox() {
    $program "$@"
}
END
tail -n +2 lines >>lines.sh
program=$program bash lines.sh >pasted 2>&1 </dev/null || cat pasted
check "the page that was lost comes back" same "$(tail -1 pasted)" "page 7 of the layout"
check "the list has two backups" grep -q '^ *2  2026-01-06  newest' pasted
