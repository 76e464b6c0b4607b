#!/usr/bin/env bash
# Every public function of every crate promises what comes back: it has an `ensures`; and the list of them in docs/CLAIMS.md is the one that
# tests/public-functions prints.
set -euo pipefail
cd "$(dirname "$0")/.."
silent=$(find crates -path '*/src/*.rt' -not -path '*/out/*' -print0 | sort -z | xargs -0 awk '
    FNR == 1 { signature = "" }
    /^[ \t]*pub (extern "C" )?fn / { signature = FILENAME ":" FNR ": " $0; promises = 0 }
    signature != "" && /ensures/ { promises = 1 }
    signature != "" && /\{[ \t]*\}?[ \t]*$/ && !/requires|ensures/ { if (!promises) print signature; signature = "" }
')
count=$(find crates -path '*/src/*.rt' -not -path '*/out/*' -print0 | xargs -0 grep -hE '^[[:space:]]*pub (extern "C" )?fn ' | wc -l)
if [ -n "$silent" ]; then
    echo "public functions with no ensures:"
    echo "$silent"
    echo "0 passed, 1 failed"
    exit 1
fi
listed=$(sed -n '/^<!-- public functions, by /,/^<!-- end of public functions -->$/p' docs/CLAIMS.md)
if ! diff <(grep '^|' <<< "$listed") <(tests/public-functions); then
    echo "the list of public functions in docs/CLAIMS.md is not that of the code: run tests/public-functions --write"
    echo "0 passed, 1 failed"
    exit 1
fi
echo "$count passed, 0 failed"
