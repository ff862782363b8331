#!/usr/bin/env bash
# Fresh bench files on a fresh seed, compared with the second program: whole runs, cut ones, and malformed files.
. "$(dirname "$0")/lib.sh"

seed=$(fresh_seed)

# The least numbers of commands, of commands answered 9000 and, where runs are cut, of commands answered 7, in a file of 100,000 commands.
# Over many seeds it has some 61,000 answered 9000 without cuts, and with them 66,500 and 2,200 answered 7.
COMMANDS=99000
ACCEPTED=50000
CUT=1000

# What the lines of a file say: how many commands there are, and how many of them are answered 9000 and 7.
tally() {
    commands=$(grep -c '^C' "$1")
    accepted=$(grep -c '^C 0 .*9000$' "$1")
    cut=$(grep -c '^C 7$' "$1")
    said="$commands random commands (at least $COMMANDS), $accepted answered 9000 (at least $ACCEPTED)"
}

# Whole runs print the second program's lines.
whole_runs() {
    "$second" bench-random "$seed" 100000 >"$work/fresh.bench"
    "$second" bench-run "$work/fresh.bench" >"$work/fresh.lines"
    "$bench" <"$work/fresh.bench" >"$work/fresh.got"
    tally "$work/fresh.lines"
    if [ "$commands" -lt "$COMMANDS" ] || [ "$accepted" -lt "$ACCEPTED" ]; then
        fail "bench: $said, seed $seed: too few"
        return
    fi
    same "bench: $said, seed $seed" "$work/fresh.lines" "$work/fresh.got" "$work/fresh.bench"
}

# Cut runs print lines that the second program allows.
cut_runs() {
    "$second" bench-random "$seed" 100000 --cuts >"$work/fresh-cuts.bench"
    "$bench" <"$work/fresh-cuts.bench" >"$work/fresh-cuts.lines"
    tally "$work/fresh-cuts.lines"
    said="$said, $cut answered 7 (at least $CUT)"
    if [ "$commands" -lt "$COMMANDS" ] || [ "$accepted" -lt "$ACCEPTED" ] || [ "$cut" -lt "$CUT" ]; then
        fail "bench: $said, with cuts, seed $seed: too few"
        return
    fi
    allowed "bench: $said, with cuts, seed $seed" "$work/fresh-cuts.bench" "$work/fresh-cuts.lines"
}

# Malformed files print the second program's lines.
malformed_files() {
    local number=0
    while [ "$number" -lt 300 ]; do
        "$second" bench-malformed $((seed + number)) >"$work/malformed.bench"
        "$second" bench-run "$work/malformed.bench" >"$work/malformed.lines"
        "$bench" <"$work/malformed.bench" >"$work/malformed.got"
        if ! cmp -s "$work/malformed.lines" "$work/malformed.got"; then
            break
        fi
        number=$((number + 1))
    done
    same "bench: $number malformed files, seeds from $seed" "$work/malformed.lines" "$work/malformed.got" "$work/malformed.bench"
}

whole_runs
cut_runs
malformed_files
finish
