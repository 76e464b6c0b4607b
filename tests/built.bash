# Sourced by the tests and by ./session, at the top of the repository: the proved program and library, proved and built where that is not
# done yet. SESSION, SVCD_LIB and BENCH_HOST_LIB name others, to try the tests themselves.

# Runs a command, and shows what it wrote only where it fails.
quietly() {
    local said
    if ! said=$("$@" 2>&1); then
        printf '%s\n' "$said"
        exit 1
    fi
}

# The crate and all of the repository that it stands on, by crates.txt.
needed() {
    awk -v wanted="$1" '
        !/^#/ && /:/ { name = $1; sub(/:$/, "", name); sub(/[^:]*:/, ""); stands_on[name] = $0 }
        function visit(name,    k, n, below) {
            if (seen[name]++ || !(name in stands_on)) return
            print name
            n = split(stands_on[name], below, " ")
            for (k = 1; k <= n; k++) visit(below[k])
        }
        END { visit(wanted) }
    ' crates.txt
}

# is_new FILE CRATE: whether the file is there, and newer than every file of the crate and of those that it stands on.
is_new() {
    local crate folders=(crates.txt)
    [ -f "$1" ] || return 1
    for crate in $(needed "$2"); do
        for part in src specs proofs; do
            [ ! -d "crates/$crate/$part" ] || folders+=("crates/$crate/$part")
        done
    done
    [ -z "$(find "${folders[@]}" -newer "$1" -print -quit)" ]
}

# The program `session` as `rt ci` and `rt run` leave it. Where it is not there or not new, `rt run` proves and builds it, and runs it on nothing.
built_program=$PWD/crates/session/out/session
build_program() {
    (cd crates/session && exec rt run < /dev/null)
}

# Sets `program` to the program `session`.
find_program() {
    program=${SESSION:-}
    if [ -z "$program" ]; then
        is_new "$built_program" session || quietly build_program
        program=$built_program
    fi
}

# find_library [NAME]: sets `library` to the folder of the library libNAME.a, libsvcd.a without a name. Crate svcd_c exports what libsvcd.a has.
find_library() {
    local name=${1:-svcd} crate
    local named=${name^^}_LIB
    crate=$name
    [ ! -d "crates/${name}_c" ] || crate=${name}_c
    library=${!named:-}
    if [ -z "$library" ]; then
        library=$PWD/target/staticlib
        is_new "$library/lib$name.a" "$crate" || quietly tests/static-library "$crate"
    fi
}

passed=0
failed=0

# check NAME COMMAND..: counts the command, and names what failed.
check() {
    local name=$1
    shift
    if "$@"; then
        passed=$((passed + 1))
    else
        failed=$((failed + 1))
        echo "failed: $name"
    fi
}

# prints LISTING TEXT PROGRAM: the program writes exactly the listing.
prints() {
    "$3" < "$2" | cmp -s - "$1"
}

# add_counts LOG: counts what the last line of a log counts, 'N passed, M failed'; fails without such a line.
add_counts() {
    [[ $(tail -n 1 "$1") =~ ^([0-9]+)\ passed,\ ([0-9]+)\ failed$ ]] || return 1
    passed=$((passed + BASH_REMATCH[1]))
    failed=$((failed + BASH_REMATCH[2]))
}

# The last line of a test, and its verdict: a test that checked nothing fails.
verdict() {
    echo "$passed passed, $failed failed"
    [ "$failed" -eq 0 ] && [ "$passed" -gt 0 ]
}
