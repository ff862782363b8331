#!/usr/bin/env bash
# The second program: built, and held to the published answers by its own tests.
. "$(dirname "$0")/lib.sh"

cargo test --quiet --offline --release --manifest-path second/Cargo.toml >"$work/cargo" 2>&1
status=$?
cat "$work/cargo"
p=$(sed -n 's/^test result: .* \([0-9]*\) passed; .*/\1/p' "$work/cargo" | awk '{n += $1} END {print n + 0}')
f=$(sed -n 's/^test result: .* \([0-9]*\) failed; .*/\1/p' "$work/cargo" | awk '{n += $1} END {print n + 0}')
add "cargo test" "$p" "$f" "$status"
cargo build --quiet --offline --release --manifest-path second/Cargo.toml || fail "the second program builds"
finish
