#!/usr/bin/env bash
# What is claimed stands word for word in tests/statements.txt, and no public call has a `requires` (tests/statements).
set -euo pipefail
cd "$(dirname "$0")/.."
code=$(mktemp)
trap 'rm -f "$code"' EXIT
failed=0
tests/statements > "$code" || failed=1
count=$(grep -c '^== ' "$code" || true)
if [ "$count" -eq 0 ]; then
    failed=1
    echo "nothing is pinned"
elif ! diff -u -F '^== ' --label "the stored copy, tests/statements.txt" --label "the code" tests/statements.txt "$code"; then
    failed=1
    echo "What is claimed differs from the stored copy. 'tests/statements --write' writes the copy anew: whoever does so must mean to change"
    echo "what is claimed, and see that docs/CLAIMS.md says it."
fi
echo "$count passed, $failed failed"
[ "$failed" -eq 0 ]
