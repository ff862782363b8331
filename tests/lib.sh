# What the test scripts share: counts, comparisons, and a folder of their own that is removed at the end. Sourced by bash; the working
# folder is the repository's root afterwards.
set -u
cd "$(dirname "${BASH_SOURCE[0]}")/.." || exit 2
root=$PWD
second=$root/second/target/release/second
# the programs, where 'rt ci' and 'rt run' leave them
bench=$root/crates/bench/out/bench
cipher=$root/crates/cipher/out/cipher
work=$(mktemp -d)
trap 'rm -rf "$work"' EXIT
passed=0
failed=0
failures=()

pass() {
    passed=$((passed + 1))
    echo "ok: $1"
}

fail() {
    failed=$((failed + 1))
    failures+=("$1")
    echo "FAILED: $1"
}

# Adds the counts of a runner: its name, passed, failed, exit status.
add() {
    passed=$((passed + $2))
    failed=$((failed + $3))
    if [ "$3" -gt 0 ]; then
        failures+=("$1: $3 failed")
    elif [ "$4" -ne 0 ] || [ "$2" -eq 0 ]; then
        fail "$1: exit status $4, $2 passed"
    fi
}

# Runs a command whose last line is 'N passed, M failed', and adds its counts: its name, then the command. Where it names what failed,
# as `finish` does, those names are taken.
counted() {
    local name=$1 status names p=0 f=0
    shift
    "$@" 2>&1 | tee "$work/counted"
    status=${PIPESTATUS[0]}
    read -r p f < <(tail -n 1 "$work/counted" | sed -n 's/^\([0-9]*\) passed, \([0-9]*\) failed$/\1 \2/p') || true
    mapfile -t names < <(sed -n 's/^failed: //p' "$work/counted")
    if [ "${f:-0}" -gt 0 ] && [ "${#names[@]}" -eq "$f" ]; then
        passed=$((passed + p))
        failed=$((failed + f))
        failures+=("${names[@]}")
    else
        add "$name" "${p:-0}" "${f:-0}" "$status"
    fi
}

# Builds a crate's static library for C, crates/NAME/out/libNAME.a. 'rt ci' keeps no library: in a new clone the crates below are built again.
library() {
    (cd "crates/$1" && rt lib)
}

# Keeps files that a failed comparison was made of.
keep() {
    mkdir -p "$root/target/differing"
    cp "$@" "$root/target/differing/"
}

# Two files are the same, and not empty; where they aren't, the first difference is shown and both are kept in target/.
same() {
    if [ -s "$2" ] && cmp -s "$2" "$3"; then
        pass "$1"
        return
    fi
    keep "${@:2}"
    echo "first difference (expected, got; the files are in target/differing):"
    diff "$2" "$3" | head -n 5
    fail "$1"
}

# Lines for a bench file with cuts are some that the second program allows; where they aren't, both files are kept in target/.
allowed() {
    local verdict
    if verdict=$("$second" bench-check "$2" "$3") && [ -s "$3" ]; then
        pass "$1: ${verdict##*/}"
        return
    fi
    keep "$2" "$3"
    echo "$verdict (the files are in target/differing)"
    fail "$1"
}

# A fresh seed.
fresh_seed() {
    od -An -N6 -tu8 /dev/urandom | tr -d ' '
}

# The second program's bench files, in a folder of this name.
stored_files() {
    mkdir "$1"
    "$second" bench-stored "$1" || fail "the second program writes its bench files"
}

# The last lines: what failed, and the counts. The exit status is 0 only where nothing failed.
finish() {
    for name in "${failures[@]+"${failures[@]}"}"; do
        echo "failed: $name"
    done
    echo "$passed passed, $failed failed"
    [ "$failed" -eq 0 ]
}
