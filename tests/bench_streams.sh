#!/usr/bin/env bash
# The ways by which a bench file can come: a file, a pipe, single bytes, more lines than a buffer holds, two files at once.
. "$(dirname "$0")/lib.sh"

stored=$work/stored
stored_files "$stored"

# Document 01's worked example prints 01's four lines. Recorded sessions print the same from a file, on a pipe and in pieces of one byte.
worked_example() {
    local way
    printf '%s\n' 'I 0' 'S 0' 'C 0 0000000000000000000000000000009000' 'C 0 0200009000' >"$work/worked"
    "$bench" "$stored/example.bench" >"$work/worked.file"
    same "bench: document 01's worked example" "$work/worked" "$work/worked.file"
    "$second" bench-run "$stored/sessions.bench" >"$work/sessions.lines"
    "$bench" "$stored/sessions.bench" >"$work/sessions.file"
    cat "$stored/sessions.bench" | "$bench" >"$work/sessions.pipe"
    dd bs=1 status=none <"$stored/sessions.bench" | "$bench" >"$work/sessions.bytes"
    for way in file pipe bytes; do
        same "bench: recorded sessions, by $way" "$work/sessions.lines" "$work/sessions.$way"
    done
}

# 6,000 READ RECORD commands, whose lines are thrice as long as their frames: the lines of one piece are more than a buffer.
long_file() {
    "$second" bench-run "$stored/records.bench" >"$work/records.lines"
    "$bench" "$stored/records.bench" >"$work/records.got"
    same "bench: a long file, $(wc -l <"$work/records.lines") lines, $(wc -c <"$work/records.lines") bytes" \
        "$work/records.lines" "$work/records.got" "$stored/records.bench"
}

# Each file has memory and session of its own: the second one begins with calls that find no card.
two_files() {
    local name
    for name in purchase sessions; do
        "$second" bench-run "$stored/$name.bench"
    done >"$work/two.lines"
    "$bench" "$stored/purchase.bench" "$stored/sessions.bench" >"$work/two.got"
    same "bench: two files named at once" "$work/two.lines" "$work/two.got" "$stored/purchase.bench" "$stored/sessions.bench"
}

worked_example
long_file
two_files
finish
