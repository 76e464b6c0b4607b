#!/usr/bin/env bash
# The tests of the plain program, which the proved one is compared with. Each file of tests must have run one at least, and none may be
# left out.
set -euo pipefail
cd "$(dirname "$0")/.."
log=$(mktemp)
trap 'rm -f "$log"' EXIT
export CARGO_TARGET_DIR=$PWD/target/cargo
if ! cargo test --release --offline --locked --quiet --manifest-path tests/plain/Cargo.toml > "$log" 2>&1; then
    cat "$log"
    echo "0 passed, 1 failed"
    exit 1
fi
files=(tests/plain/tests/*.rs)
awk -v files="${#files[@]}" '
    /^test result: ok\./ { passed += $4; ran += $4 > 0; left_out += $8 + $12 }
    END {
        failed = 0
        if (ran < files) { print "tests ran in " ran + 0 " of " files " files"; failed++ }
        if (left_out > 0) { print left_out " tests were left out"; failed++ }
        print passed + 0 " passed, " failed " failed"
        exit failed > 0
    }
' "$log"
