#!/usr/bin/env bash
# docs/LAYOUT.md has the numbers of the definitions: where blocks start, their sizes, the offsets and widths of their fields, how many stores
# each change has, and the older layouts.
. "$(dirname "$0")/lib.sh"

# A line for each comparison: pass or fail, and its name.
read_both() {
    python3 - <<'PY'
import re


def text(path):
    return open(path, encoding="utf-8").read()


def body(source, name):
    """The right-hand side of a definition, on one line."""
    found = re.search(rf"^{name}(?: \w+)* =((?:\n? .*)+)", source, re.M)
    return " ".join(found.group(1).split())


layout, structs, changes = (text(f"crates/memory/specs/{name}.antt") for name in ("Layout", "Structs", "Changes"))
keys, log, proper = (text(f"crates/card/specs/{name}.antt") for name in ("Keys", "Log", "Proper"))

# the definitions' numbers: widths by struct, sizes by name, starts by root
widths = {name: [w.strip() for w in line.split("∷")[:-1]] for name, line in re.findall(r"^(\w+)_widths = (.*\[\])$", structs, re.M)}
sizes = {"keys_size": int(body(keys, "keys_size")), "record_size": int(body(log, "record_size"))}
owners = {size: name for size, name in re.findall(r"^(\w+_size) = total (\w+)_widths$", structs, re.M)}


def width(w):
    return int(w) if w.isdigit() else sizes[w] if w in sizes else sum(map(width, widths[owners[w]]))


def leaves(struct):
    """The widths of a struct's fields, and of their fields."""
    return [leaf for w in widths[struct] for leaf in (leaves(owners[w]) if w in owners else [width(w)])]


sizes.update({name: width(name) for name in owners})
memory_size, magic, root_at, fixed_at, ring_at = (int(body(layout, n), 0) for n in ("memory_size", "magic", "root_at", "fixed_at", "ring_at"))
most = int(re.search(r"leb f\.logsize (\d+)", proper).group(1))
slots = sizes["record_size"] * (most + 1)


def at(name, root):
    return eval(body(layout, name).replace("/", "//"), {"root": root})


def count(name, **flags):
    rule = body(changes, name).replace("(is_some x.logged)", "x.logs")  # whether a change has a log record
    rule = re.sub(r"pick x\.(\w+) (\w+) 0", r"(\2 if \1 else 0)", rule)
    return eval(rule, dict(sizes, **flags))


# LAYOUT's tables: the rows under a heading
page = text("docs/LAYOUT.md")


def rows(heading):
    part = page.split(f"\n## {heading}\n")[1].split("\n## ")[0]
    return [[cell.strip() for cell in line.strip("|").split("|")] for line in part.split("\n") if line.startswith("|")][2:]


def number(cell):
    return int(re.search(r"[\d,]+$", cell).group().replace(",", ""))


def verdict(name, got, want):
    print(f"pass {name}" if got == want else f"fail {name}: it has {got}, the definitions {want}")


starts = [(0, 1), (root_at, 1), (fixed_at, sizes["fixed_size"]), (at("hot_at", 0), sizes["hot_size"]), (at("hot_at", 1), sizes["hot_size"])]
starts += [(at("cold_at", 0), sizes["cold_size"]), (at("cold_at", 2), sizes["cold_size"]), (ring_at, slots)]
whole = [(number(start), number(size), holds) for start, size, holds in rows("The whole")]
verdict("docs/LAYOUT.md: starts and sizes", [row[:2] for row in whole if row[2] != "not read"], starts)
verdict("docs/LAYOUT.md: no gap", [a + b for a, b, _ in whole], [a for a, _, _ in whole][1:] + [memory_size])
verdict("docs/LAYOUT.md: magic", re.search(r"magic (\w+)", whole[0][2]).group(1), f"{magic:X}")
named = [number(cell) for row in rows("The root") for cell in (row[1].replace(" is live", ""), row[2])]
verdict("docs/LAYOUT.md: the root", named, [at("hot_at", 0), at("hot_at", 1), at("cold_at", 0), at("cold_at", 2)])


def fields(struct):
    return [(sum(leaves(struct)[:k]), w) for k, w in enumerate(leaves(struct))]


fixed = [tuple(map(number, row[:3])) for row in rows(f"The fixed part, from {fixed_at}")]
verdict("docs/LAYOUT.md: the fixed part", fixed, [(o, fixed_at + o, w) for o, w in fields("fixed")])
hot = [tuple(map(number, row[:2])) for row in rows(f"Block H, from {at('hot_at', 0):,} or {at('hot_at', 1):,}")]
verdict("docs/LAYOUT.md: block H", hot, fields("hot"))
cold = [tuple(map(number, row[:2])) for row in rows(f"Block C, from {at('cold_at', 0):,} or {at('cold_at', 2):,}")]
verdict("docs/LAYOUT.md: block C", cold, fields("cold"))
ring = re.search(r"Slot j has the (\d+) bytes from ([\d,]+) \+ (\d+) j", page).groups()
verdict("docs/LAYOUT.md: the ring", [number(n) for n in ring], [sizes["record_size"], ring_at, sizes["record_size"]])
reads = re.findall(r"(word_at|field|byte_at) l (\d+) ?(\d*)", body(log, "record_in"))
record = [(int(at), {"word_at": 2, "byte_at": 1}.get(how) or int(n)) for how, at, n in reads]
verdict("docs/LAYOUT.md: a record", [tuple(map(number, row[:2])) for row in rows("The ring")], record)
older = re.findall(r"0x(\w+)", body(layout, "older_magics"))
verdict("docs/LAYOUT.md: older layouts", [row[0] for row in rows("Which memories are cards")], older)

counts = {
    "state": count("store_count", logs=False, cold=False),
    "state and record": count("store_count", logs=True, cold=False),
    "state and parameters": count("store_count", logs=False, cold=True),
    "installation": count("install_count"),
}
stores = rows("What is live and what is dead")
verdict("docs/LAYOUT.md: stores", {row[0]: number(row[2]) for row in stores}, counts)
verdict("docs/LAYOUT.md: their sums", [sum(map(number, row[1].split(", "))) for row in stores], [number(row[2]) for row in stores])
PY
}

if ! read_both >"$work/verdicts"; then
    fail "docs/LAYOUT.md and the definitions can be read"
fi
while read -r verdict name; do
    "$verdict" "$name"
done <"$work/verdicts"
finish
