#!/usr/bin/env bash
# Every source, specification and proof file is in the formatter's layout: `rt fmt` changes nothing in a copy.
set -euo pipefail
cd "$(dirname "$0")/.."
copy=$(mktemp -d)
trap 'rm -rf "$copy"' EXIT
cp crates.txt "$copy"
for part in crates/*/{src,specs,proofs}; do
    [ -d "$part" ] || continue
    mkdir -p "$copy/$(dirname "$part")"
    cp -r "$part" "$copy/$part"
done
if ! said=$(printf '%s\0' "$copy"/crates/* | xargs -0 -P 4 -I{} sh -c 'cd "{}" && rt fmt' 2>&1); then
    echo "$said"
    echo "0 passed, 1 failed"
    exit 1
fi
passed=0
failed=0
for part in "$copy"/crates/*/*; do
    if diff -r "${part#"$copy/"}" "$part"; then
        passed=$((passed + 1))
    else
        failed=$((failed + 1))
    fi
done
echo "$passed passed, $failed failed"
[ "$failed" -eq 0 ] && [ "$passed" -gt 0 ]
