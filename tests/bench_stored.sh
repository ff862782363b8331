#!/usr/bin/env bash
# The stored bench files are the second program's, and its sessions reach every rule; cuts at every store are allowed ones.
. "$(dirname "$0")/lib.sh"

stored=$work/stored
stored_files "$stored"
(cd "$stored" && cat example.bench purchase.bench sessions.bench && "$second" bench-malformed 1) >"$work/stored.bench"
same "bench: the stored file is the second program's" "$work/stored.bench" crates/bench/stdin
"$second" bench-run "$work/stored.bench" >"$work/stored.lines"
same "bench: the stored lines are the second program's" "$work/stored.lines" crates/bench/stdout
same "examples/purchase.bench is the second program's" "$stored/purchase.bench" examples/purchase.bench
if "$second" bench-coverage "$stored/sessions.bench"; then
    pass "bench: the stored sessions reach every pair of command and status word"
else
    fail "bench: the stored sessions reach every pair of command and status word"
fi
"$bench" "$stored/cuts.bench" >"$work/cuts.lines"
allowed "bench: every store of each kind of command cut" "$stored/cuts.bench" "$work/cuts.lines"
finish
