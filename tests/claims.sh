#!/usr/bin/env bash
# Each name in docs/CLAIMS.md is defined in the file that its row gives, each must-fail edit named there exists, and each of the gate's is
# named. What a file defines is what `tests/statements --names` prints: declarations, with the fields and constructors of those that have them.
set -euo pipefail
cd "$(dirname "$0")/.."
passed=0
failed=0
check() {
    if "$@"; then
        passed=$((passed + 1))
    else
        failed=$((failed + 1))
        echo "not found: ${*: -2}"
    fi
}
names=$(tests/statements --names)
declare -A defines
while read -r path name; do
    defines[$path $name]=1
done <<< "$names"
defined() {
    [ -n "${defines[$2 $1]:-}" ]
}
# rows `| what | names | file |`; the names and the file stand in back quotes
while IFS='|' read -r _ _ names file _; do
    [[ $file =~ \`(crates/[^\`]+)\` ]] || continue
    path=${BASH_REMATCH[1]}
    rest=$names
    while [[ $rest =~ \`([^\`]+)\`(.*) ]]; do
        name=${BASH_REMATCH[1]}
        rest=${BASH_REMATCH[2]}
        check defined "$name" "$path"
    done
done < docs/CLAIMS.md
for edit in $(grep -oE '(crates/[a-z_]+/must-fail|tests/edits/[a-z_]+)/[a-z_0-9]+\.edit' docs/CLAIMS.md | sort -u); do
    check test -f "$edit"
done
for edit in crates/*/must-fail/*.edit; do
    check grep -qF -- "$edit" docs/CLAIMS.md
done
echo "$passed passed, $failed failed"
[ "$failed" -eq 0 ] && [ "$passed" -gt 0 ]
