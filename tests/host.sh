#!/usr/bin/env bash
# The C host: built with its example and tests under the sanitizers, tried by hand-made calls, and held to the second program's lines.
. "$(dirname "$0")/lib.sh"

stored=$work/stored
stored_files "$stored"

# A C program under the sanitizers: its name, then its files.
compile() {
    local name=$1
    shift
    cc -std=c11 -Wall -Wextra -Werror -O1 -g -fsanitize=address,undefined -fno-sanitize-recover=all -Iinclude \
        "$@" -o "$work/$name"
}

# The C host, its example and its tests are built; without a C compiler that fails.
build_host() {
    local host=crates/host/out/libhost.a cipher=crates/cipher_c/out/libcipher_c.a
    library host && library cipher_c && compile host-example examples/host.c "$host" "$cipher" &&
        compile host-tests tests/host.c "$host" && compile host-replay tests/replay.c "$host"
}

# A signed purchase, then wrong lengths, the order of the answers and a cut at every store, over the second program's calls.
host_tests() {
    "$work/host-example" | tee "$work/host-example-got"
    if [ "${PIPESTATUS[0]}" -eq 0 ] && [ "$(tail -n 1 "$work/host-example-got")" = "balance 650" ]; then
        pass "host: example"
    else
        fail "host: example"
    fi
    counted "host: tests" "$work/host-tests" "$stored/sessions.bench"
}

# Bench files through the C host print the second program's lines; where runs are cut, lines that it allows.
host_replays() {
    local name seed
    for name in example purchase sessions; do
        "$second" bench-run "$stored/$name.bench" >"$work/$name-expected"
        "$work/host-replay" "$stored/$name.bench" >"$work/$name-got"
        same "host: $name.bench, $(wc -l <"$work/$name-expected") calls" "$work/$name-expected" "$work/$name-got"
    done
    seed=$(fresh_seed)
    "$second" bench-random "$seed" 20000 --cuts >"$stored/random.bench"
    for name in cuts random; do
        "$work/host-replay" "$stored/$name.bench" >"$work/$name-got"
        allowed "host: $name.bench with cuts, seed $seed" "$stored/$name.bench" "$work/$name-got"
    done
}

# The stored images are named after their magic. This layout's reads as the card that the second program has after the same calls. Those of
# older layouts are no card, and neither is the second program's empty memory: the same calls print the same lines on both.
host_images() {
    local image magic older
    older=$(sed -n 's/^older_magics = //p' crates/memory/specs/Layout.antt | grep -o '0x[0-9A-F]*')
    cat "$stored/image-making.bench" "$stored/image-reading.bench" >"$work/image.bench"
    "$second" bench-run "$work/image.bench" >"$work/image-whole"
    "$second" bench-run "$stored/image-making.bench" >"$work/image-making"
    tail -n "+$(($(wc -l <"$work/image-making") + 1))" "$work/image-whole" >"$work/card-expected"
    "$second" bench-run "$stored/image-no-card.bench" >"$work/no-card-expected"
    "$work/host-replay" --from "$own_image" "$stored/image-reading.bench" >"$work/card-got"
    same "host: $own_image reads as its card" "$work/card-expected" "$work/card-got"
    [ -n "$older" ] || fail "host: the older layouts are named"
    for magic in $older; do
        image=tests/images/${magic#0x}.card
        "$work/host-replay" --from "$image" "$stored/image-no-card.bench" >"$work/no-card-got"
        same "host: $image, of an older layout, reads as no card" "$work/no-card-expected" "$work/no-card-got"
    done
}

# The stored image with other bytes 25 in each slot of its log, which is full, and with void records: a card where docs/LAYOUT.md has it.
host_key_sets() {
    local image
    mkdir "$work/records"
    printf '\xB5\xC3\x02\x00\x02\xFF\xFF' >"$work/start.bench"
    python3 - "$own_image" "$work/records" >"$work/records-expected" <<'PY'
import sys

memory, folder = open(sys.argv[1], "rb").read(), sys.argv[2]
hot = 64 + 64 * (memory[1] % 2)
size, newest, made = memory[19], memory[hot + 3], memory[hot + 4]
assert made == size
spare = (newest + 1) % (size + 1)


def try_record(slot, name, record, is_card):
    at = 2048 + 25 * slot
    open(f"{folder}/{slot:02}-{name}.card", "wb").write(memory[:at] + record + memory[at + 25 :])
    print(f"{slot:02}-{name}: S {0 if is_card or slot == spare else 2}")


for slot in range(size + 1):
    old = memory[2048 + 25 * slot :][:24]
    for byte in (0x00, 0x01, 0x02, 0x03, 0x04, 0x11, 0xFF):
        try_record(slot, f"{byte:02X}", old + bytes([byte]), 1 <= byte <= 3)
    try_record(slot, "void", bytes(25), True)
PY
    for image in "$work"/records/*.card; do
        echo "$(basename "$image" .card): $("$work/host-replay" --from "$image" "$work/start.bench")"
    done >"$work/records-got"
    same "host: the key set of a record, $(wc -l <"$work/records-got") memories" "$work/records-expected" "$work/records-got"
}

own_image=tests/images/$(sed -n 's/^magic = 0x//p' crates/memory/specs/Layout.antt).card
if build_host; then
    pass "host: the C host is built"
    host_tests
    host_replays
    host_images
    host_key_sets
else
    fail "host: the C host is built"
fi
finish
