#!/usr/bin/env bash
# The proved session: the examples and the stored texts through the program; these and generated sessions through the library, beside the
# plain program.
#
#     tests/session.sh [COUNT [SEED]]
set -euo pipefail
cd "$(dirname "$0")/.."
. tests/built.bash
count=${1:-4000}
seed=${2:-1}
find_program
find_library

texts=(examples/*.txt tests/vectors/*.txt)
for text in "${texts[@]}"; do
    check "$text" prints "${text%.txt}.listing" "$text" "$program"
done

# Texts that come in pieces, and one that is much too long.
folder=$(mktemp -d)
trap 'rm -rf "$folder"' EXIT
in_pieces() {
    local text=examples/brewery.txt
    {
        head -c 1000 $text
        sleep 0.1
        tail -c +1001 $text | head -c 1
        sleep 0.1
        tail -c +1002 $text
    } | "$program" | cmp -s - "${text%.txt}.listing"
}
check "a text in pieces" in_pieces
head -c 1000000 < <(yes out) > "$folder/million.txt"
echo 0,22 > "$folder/million.listing"
check "a million bytes" prints "$folder/million.listing" "$folder/million.txt" "$program"

# The script at the top, as the README calls it: on a file and on standard input, silent where nothing is to be done. What it says while
# crates are proved, and where one is not, is tried in a folder where the program is older than crates.txt, with an `rt` that only writes
# such lines.
if [ -z "${SESSION:-}" ]; then
    lists() {
        ./session "$1" 2> "$folder/said" | cmp -s - "${1%.txt}.listing" && [ ! -s "$folder/said" ]
    }
    check "./session FILE" lists examples/teaching.txt
    check "./session < FILE" prints examples/teaching.listing examples/teaching.txt ./session

    older=$folder/older
    mkdir -p "$folder/bin" "$older/tests" "$older/crates/session/out"
    cp session crates.txt "$older"
    cp tests/built.bash "$older/tests"
    cp "$program" "$older/crates/session/out"
    touch -d '2000-01-01' "$older/crates/session/out/session"
    stands_for_rt() {
        printf '#!/bin/sh\nprintf "%%s\\n" "rt: chose --jobs 2 for sets" "rt: chose --jobs 2 for model" "%s" >&2\nexit %s\n' "$1" "$2" > "$folder/bin/rt"
        chmod +x "$folder/bin/rt"
    }
    says_how_far() {
        stands_for_rt "rt: running out/session" 0
        PATH=$folder/bin:$PATH "$older/session" < examples/teaching.txt 2> "$folder/said" | cmp -s - examples/teaching.listing &&
            grep -qE '^session: proving model, crate 2 of at most [0-9]+$' "$folder/said" && ! grep -q '^rt: ' "$folder/said"
    }
    check "./session: how many crates are proved" says_how_far
    says_what_failed() {
        stands_for_rt "rt: the library model did not build" 1
        ! PATH=$folder/bin:$PATH "$older/session" < examples/teaching.txt > "$folder/listed" 2> "$folder/said" &&
            [ ! -s "$folder/listed" ] && grep -q '^rt: the library model did not build' "$folder/said"
    }
    check "./session: a crate that is not proved" says_what_failed
fi

stack=$(sed -n 's/^#define SVCD_STACK \([0-9]*\)$/\1/p' include/svcd.h)
log=$folder/log
export SVCD_LIB=$library CARGO_TARGET_DIR=$PWD/target/cargo
compare() {
    cargo run --release --offline --locked --quiet --manifest-path tests/compare/Cargo.toml -- \
        "$program" "$stack" "$seed" "$count" "${texts[@]}" > "$log"
}
check "the comparison of seed $seed, $count sessions" compare
sed '$d' "$log"
check "the comparison comes to its end" add_counts "$log"
verdict
