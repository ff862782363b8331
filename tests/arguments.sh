#!/usr/bin/env bash
# The bench program's arguments: what is asked for is done, and of what is refused nothing.
. "$(dirname "$0")/lib.sh"

# A bench file, and the lines that are printed for it alone.
cp crates/bench/stdin "$work/a.bench"
cp crates/bench/stdin "$work/--plain"
"$bench" "$work/a.bench" >"$work/once"
cat "$work/once" "$work/once" >"$work/twice"

# Runs the bench in the test's folder, with the bench file on standard input too. The arguments are its own.
run() {
    (cd "$work" && "$bench" "$@" <a.bench >output 2>errors)
}

# Help goes to standard output, and nothing is run.
help() {
    if run "$@" && [ "$(head -n 1 "$work/output")" = "usage: bench [--plain] [FILE..]" ] && [ ! -s "$work/errors" ] &&
        [ "$(wc -l <"$work/output")" -lt 9 ]; then
        pass "bench: '$*' prints the usage and nothing else"
    else
        fail "bench: '$*' prints the usage and nothing else"
    fi
}

# One line on standard error names the argument by its number, and nothing is run. The number, the arguments.
refused() {
    local at=$1 words
    shift
    words=${*//[^[:print:]]/?}
    run "$@"
    if [ ! -s "$work/output" ] && [ "$(wc -l <"$work/errors")" -eq 1 ] &&
        grep -q "^bench: argument $at is .*bench --help" "$work/errors"; then
        pass "bench: '${words:0:40}' is refused in one line"
    else
        fail "bench: '${words:0:40}' is refused in one line"
    fi
}

# The lines are those of the file alone, or those twice; nothing is said on standard error. The lines, the arguments.
lines() {
    local expected=$1
    shift
    run "$@"
    same "bench: the lines of 'bench${*:+ $*}'" "$expected" "$work/output"
    if [ -s "$work/errors" ]; then
        fail "bench: 'bench${*:+ $*}' says nothing on standard error"
    fi
}

same "bench: the lines of the stored file" crates/bench/stdout "$work/once"
help --help
help --plain --help
help --help -x a.bench
help a.bench --help
help --help --help
refused 1 -
refused 1 -x
refused 1 --
refused 1 --plane
refused 1 --plai
refused 1 --plainly
refused 1 --helpful
refused 1 --PLAIN
refused 1 -x --help
refused 1 -x a.bench
refused 2 a.bench --plain
refused 2 a.bench -
refused 2 --plain -
refused 3 a.bench a.bench -x
refused 3 --plain a.bench --plain a.bench
refused 1 $'-\033[31m\n'
refused 2 a.bench "$(printf '%5000s' '' | tr ' ' a)"
lines "$work/once"
lines "$work/once" a.bench
lines "$work/once" --plain
lines "$work/once" --plain a.bench
lines "$work/once" --plain --plain a.bench
lines "$work/once" ./--plain
lines "$work/twice" a.bench a.bench
lines "$work/twice" --plain a.bench a.bench
finish
