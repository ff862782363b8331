#!/usr/bin/env bash
# The places of issue 32's points in crates/*/src, as patterns find them, and the size of the proofs: tools/design_counts.sh [COMMIT].
# With a commit it counts in that commit's files. docs/DESIGN-PASS.md has the counts and says what each place became.
cd "$(dirname "$0")/.." || exit 1
where=${1:-}
source=$(mktemp -d)
trap 'rm -rf "$source"' EXIT
if [ -n "$where" ]; then
    git archive "$where" crates | tar -x -C "$source" || exit 1
else
    git ls-files -co --exclude-standard crates | tar -c -T - | tar -x -C "$source"
fi
cd "$source" || exit 1

count() { printf '%-3s %5s  %s\n' "$1" "$(grep -r -h -E -e "$3" --include='*.rt' crates/*/src | grep -v -E '^ *//' | wc -l)" "$2"; }

count 1a "a flag beside a value, a field" '^ +(pub )?(ok|defined|logs|good|done|on|again|last|personalized): bool,'
count 1b "a variant that stands for None or Err" '^ +(WrongLength|UnknownClass|UnknownInstruction|Unknown|Refused\(usize\)|Nothing|Closed),'
count 1c "a status word as a refusal's number" '(return|, |status: |^ +)0x(6[0-9A-F]{3}|94[0-9]{2}|9000)\b'
count 1d "an answer of 01's list as a number" '(storeless\([0-9]|answer: [0-9]|answer (==|!=) [0-9]|return [1-8];)'
count 1e "an access level as a number" '(const (PUBLIC|DEBIT|CREDIT|ADMIN): u8|(<=?|<=) held|held <|access\(level\) <)'
count 1f "0 for what can't be done" '^ +return 0;'
count 2a "a function named by its size" 'fn [a-z_]*[a-z](4|8|16|32|48)\('
count 2b "a function of one engine that the other has too" 'fn (plain|quick)_[a-z]+\(|^(pub )?fn (outer_keys|inner_keys|chained|turn|triple_block|walk|walk_under|signature|signature_under)\('
count 3a "a loop whose index is counted by hand" '^ +while '
count 3b "a for loop over numbers" '^ +for [a-z_]+ in [^ ]*\.\.'
count 4a "equality, tests and conversions by hand" '\b(same|all_true|both|either|flag_byte|high|low|word_of)\('
count 4b "arithmetic that the library has" '\b(least|lesser|difference|left|clear|capped)\('
count 5a "the engine, the head and the session, passed apart" 'head: Head, session: Session|^ +head: Head,$'
count 5b "a fact on lent tables or on a parsed command" 'requires .*(Boxed|Chosen|parsed command)'
count 5c "memory and its room, passed apart" 'memory: &mut \[u8\],|mem: &mut \[u8\],'
count 6a "a number of used bytes beside a buffer" '^ +(pub )?(len|size|used|have|written): (usize|u8),'
count 7a "a switch on which engine or mode runs" 'match (engine|way)\b'
count s1 "a field that is given its own name" '^ +([a-z_]+): \1,$'
count s2 "a test that returns false or true" 'return (true|false);'
count s3 "lines of code" '.'
printf '%-3s %5s  %s\n' 8a "$(find crates/*/proofs -name 'Answers.antt' -o -name 'Invariants.antt' | wc -l)" "proof files of functions"
printf '%-3s %5s  %s\n' 8b "$(find crates/*/proofs \( -name 'Answers.antt' -o -name 'Invariants.antt' \) -exec cat {} + | wc -l)" "lines in them"
printf '%-3s %5s  %s\n' 8c "$(find crates/*/proofs -maxdepth 1 -name '*.antt' -exec cat {} + | wc -l)" "lines of lemmas"
