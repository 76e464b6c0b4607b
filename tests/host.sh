#!/usr/bin/env bash
# The example host in C: built with every warning as an error, run on the examples, and again under the address and undefined behaviour
# sanitizers. It begins with slices that are too short, so that it meets minus 22 too.
set -euo pipefail
cd "$(dirname "$0")/.."
. tests/built.bash
find_library
folder=$(mktemp -d)
trap 'rm -rf "$folder"' EXIT

build() {
    local host=$1
    shift
    cc -Wall -Wextra -Werror -pedantic -std=c11 "$@" -Iinclude examples/host.c "$library/libsvcd.a" -o "$host"
}

# The header by itself.
printf '#include "svcd.h"\n' > "$folder/alone.c"
check "the header alone" cc -Wall -Wextra -Werror -pedantic -std=c11 -fsyntax-only -Iinclude "$folder/alone.c"

lists() {
    "$1" "$2" "$3" 2> "$folder/said" | cmp -s - "${2%.txt}.listing"
}

# Standard error has a line for each slice that was too short for the listing, as the host lengthens it, and nothing else.
says() {
    local bytes=$2 listing
    listing=$(wc -c < "${1%.txt}.listing")
    while [ "$bytes" -lt "$listing" ]; do
        echo "host: $bytes bytes are too few"
        bytes=$((bytes < 4096 ? 4096 : 2 * bytes))
    done | diff - "$folder/said"
}

for flags in "-O2" "-O1 -g -fsanitize=address,undefined -fno-sanitize-recover=all"; do
    # shellcheck disable=SC2086
    check "built with $flags" build "$folder/host" $flags
    for text in examples/*.txt tests/vectors/{empty,document-01,long-13,listing-65536}.txt; do
        for bytes in 0 1 100 4096 1000000; do
            check "$text, $bytes bytes, $flags" lists "$folder/host" "$text" "$bytes"
            check "$text, $bytes bytes, $flags: the messages" says "$text" "$bytes"
        done
    done
done

# A host that can't lend enough: the listing has some 40 million bytes, and the host may use 32 million. It looks at the refused slice.
{
    cat examples/brewery.txt
    head -n 8000 < <(yes out)
} > "$folder/large.txt"
gives_up() {
    build "$folder/small" -O2 && (ulimit -v 32000 && "$folder/small" "$folder/large.txt" 8000000 2> "$folder/said") | cmp -s - <(echo 0,22)
}
check "a host that can't lend enough" gives_up
# How far it gets before that is the system's business; the first slice is too short in any case.
says_first() {
    [ "$(head -n 1 "$folder/said")" = "host: 8000000 bytes are too few" ] && ! grep -v '^host: [0-9]* bytes are too few$' "$folder/said"
}
check "a host that can't lend enough: the messages" says_first
verdict
