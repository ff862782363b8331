#!/usr/bin/env bash
# The cipher program on both engines and the second program's answers, on stored tests and on random ones; and the program's arguments.
. "$(dirname "$0")/lib.sh"

# The cipher program on an engine, `quick` or `plain`.
cipher() {
    case $1 in
    quick) "$cipher" ;;
    plain) "$cipher" --plain ;;
    esac
}

# The stored tests of crate cipher are the second program's, the expected output with them, and both engines give it.
stored_cipher() {
    local engine
    "$second" cipher-known >"$work/known"
    same "cipher: stored tests are the second program's" "$work/known" crates/cipher/stdin
    "$second" cipher-answers <crates/cipher/stdin >"$work/known-answers"
    same "cipher: stored answers are the second program's" "$work/known-answers" crates/cipher/stdout
    for engine in quick plain; do
        cipher "$engine" <crates/cipher/stdin >"$work/known-$engine"
        same "cipher: stored tests on the $engine engine" crates/cipher/stdout "$work/known-$engine"
    done
}

# Random blocks and signatures on a fresh seed.
random_cipher() {
    local seed engine
    seed=$(fresh_seed)
    "$second" cipher-random "$seed" 20000 2000 >"$work/random"
    "$second" cipher-answers <"$work/random" >"$work/random-expected"
    if [ ! -s "$work/random-expected" ]; then
        fail "cipher: random tests were made (seed $seed)"
        return
    fi
    for engine in quick plain; do
        cipher "$engine" <"$work/random" >"$work/random-$engine"
        same "cipher: 20,000 random blocks and 2,000 random signatures on the $engine engine, $(wc -l <"$work/random") tests, seed $seed" \
            "$work/random-expected" "$work/random-$engine" "$work/random"
    done
}

# Help goes to standard output, a wrong argument gives one line on standard error; no test is answered.
arguments() {
    local words
    "$cipher" --help <crates/cipher/stdin >"$work/help" 2>"$work/help-errors"
    if [ "$(head -n 1 "$work/help")" = "usage: cipher [--plain]" ] && [ ! -s "$work/help-errors" ] && [ "$(wc -l <"$work/help")" -lt 9 ]; then
        pass "cipher: --help prints the usage and nothing else"
    else
        fail "cipher: --help prints the usage and nothing else"
    fi
    for words in "--quick" "--plain --plain" "file" "--help --plain"; do
        # shellcheck disable=SC2086 # the words are arguments of their own
        "$cipher" $words <crates/cipher/stdin >"$work/wrong" 2>"$work/wrong-errors"
        if [ ! -s "$work/wrong" ] && [ "$(wc -l <"$work/wrong-errors")" -eq 1 ] && grep -q -- "--help" "$work/wrong-errors"; then
            pass "cipher: the arguments '$words' are refused in one line"
        else
            fail "cipher: the arguments '$words' are refused in one line"
        fi
    done
}

stored_cipher
random_cipher
arguments
finish
