#!/usr/bin/env bash
# The number calls of crate bench_host beside the plain program: generated sequences of the ten commands with raw numbers, the queries and
# parts lists of the Books reached, and Books with bytes changed.
#
#     tests/numbers.sh [COUNT [SEED]]
set -euo pipefail
cd "$(dirname "$0")/.."
. tests/built.bash
count=${1:-300}
seed=${2:-1}
find_library bench_host

log=$(mktemp)
trap 'rm -f "$log"' EXIT
export BENCH_HOST_LIB=$library CARGO_TARGET_DIR=$PWD/target/cargo
compare() {
    cargo run --release --offline --locked --quiet --manifest-path tests/numbers/Cargo.toml -- "$seed" "$count" > "$log"
}
check "the comparison of seed $seed, $count sequences" compare
sed '$d' "$log"
check "the comparison comes to its end" add_counts "$log"
verdict
