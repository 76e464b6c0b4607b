#!/usr/bin/env bash
# The examples of docs/MANUAL.md: each block marked `session` gives the listing in the block after it, and so does the program in a block
# marked `c`.
set -euo pipefail
cd "$(dirname "$0")/.."
. tests/built.bash
find_program
find_library
folder=$(mktemp -d)
trap 'rm -rf "$folder"' EXIT

# Writes the blocks to N.session or N.c, and N.listing: N counts what stands before a listing.
awk -v folder="$folder" '
    /^```/ && kind != "" { close(file); kind = ""; next }
    /^```(session|c)$/ { kind = substr($0, 4); number++; file = sprintf("%s/%03d.%s", folder, number, kind); printf "" > file; next }
    /^```listing$/ && listed == number { print "a listing of nothing: line " NR; exit 1 }
    /^```listing$/ { kind = "listing"; listed = number; file = sprintf("%s/%03d.listing", folder, number); printf "" > file; next }
    /^```/ { print "a block of another kind: " $0; exit 1 }
    kind != "" { print > file }
' docs/MANUAL.md

for text in "$folder"/*.session; do
    check "session $(basename "$text" .session), which begins: $(head -n 1 "$text")" prints "${text%.session}.listing" "$text" "$program"
done

host_prints() {
    cc -Wall -Wextra -Werror -pedantic -std=c11 -Iinclude "$1" "$library/libsvcd.a" -o "$folder/host" \
        && "$folder/host" | cmp -s - "${1%.c}.listing"
}
for host in "$folder"/*.c; do
    check "the host in C" host_prints "$host"
done
verdict
