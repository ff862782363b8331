#!/usr/bin/env bash
# Which engine ciphers is nobody's business but the cipher's: no definition of the commands and of the calls names one, and the bench prints the
# same lines on both.
. "$(dirname "$0")/lib.sh"

# No file of definitions of the commands, the calls and what they rest on names an engine.
silent() {
    local found
    found=$(grep -n -i -E 'engine|quick' crates/{commands_spec,purse_spec,channel,session,card,memory}/specs/*.antt)
    if [ $? -eq 1 ]; then # grep read every file, and found nothing
        pass "engines: no definition of the commands and the calls names an engine"
    else
        echo "$found"
        fail "engines: no definition of the commands and the calls names an engine"
    fi
}

# Stored files and a random one print the same on both.
alike() {
    local stored=$work/stored name seed
    stored_files "$stored"
    seed=$(fresh_seed)
    "$second" bench-random "$seed" 5000 --cuts >"$stored/random.bench"
    for name in example purchase sessions cuts random; do
        "$bench" "$stored/$name.bench" >"$work/$name-quick"
        "$bench" --plain "$stored/$name.bench" >"$work/$name-plain"
        same "engines: $name.bench on both, $(wc -l <"$work/$name-quick") lines, seed $seed" "$work/$name-plain" "$work/$name-quick"
    done
}

silent
alike
finish
