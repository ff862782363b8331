#!/usr/bin/env bash
# Must-fail edits are refused at a false fact, and where they say: what 'rt ci' says of each edit stands at a law, a step of one, or a function's
# contract that the edit's second line names, a method's with its type, and whose text the edit leaves alone; no limit of the prover refused it, and
# no missing name.
# usage: tests/refusals.sh [LOG]: reads what 'rt ci' printed, target/rt-ci.log as .ci/run keeps it; of another log, such as what
# 'rt must-fail NAME' printed, the crates that it names alone.
. "$(dirname "$0")/lib.sh"

# A line for each edit, 'good' or 'bad', and what is said of it.
judge() {
    python3 - "$@" <<'PY'
import glob, os, re, sys

log, whole = sys.argv[1], sys.argv[2] == ""
SAID = re.compile(r"(?:rt: )?must-fail (\w+)/([\w.-]+)\.edit: (.*)")
REFUSED = "refused, as it must be: "
LAW = re.compile(r"(?:\./)?(proofs/[^:]+\.antt):(\d+):\d+: error: `([^`]+)`")
CONTRACT = re.compile(r"note: (?:\./)?(src/[^:]+\.rt):(\d+):\d+: it is not proved that")
MISSING = re.compile(r"is not in scope|has no field|missing field|can be named from here")
WORD = r"[\w'-]+(?:::\w+)*"
TYPE = re.compile(r"^(?:pub )?(?:impl|trait)\b(?:<[^>]*>)? *(?:.* for )?(\w+)")
FUNCTION = re.compile(r"^(?:[^/]*\s)?fn (\w+)")


def text(path):
    with open(path, encoding="utf-8") as file:
        return file.read()


def edited(edit, crate):
    """The files that an edit changes, as they are after it."""
    files, path, old = {}, None, None
    for line in edit.split("\n"):
        kind, _, rest = line.partition(":")
        rest = rest.removeprefix(" ")
        if kind == "file":
            path = rest.strip()
            files.setdefault(path, text(f"{crate}/{path}"))
        elif kind == "old":
            old = rest
        elif kind == "new":
            files[path] = files[path].replace(old, rest)
    return files


def law(source, name):
    """The text of a law: its type and its clauses, up to the next line that is indented as they are."""
    found, inside = [], 0
    for line in source.split("\n"):
        own = line.lstrip(" ")
        depth = len(line) - len(own) + 1 if own else 0
        own = own.removeprefix("pub ")
        if own.startswith(f"{name} :"):
            inside = depth
        elif inside and 0 < depth <= inside and not own.startswith((f"{name} ", "unfolding ")):
            inside = 0
        if inside:
            found.append(line)
    return "\n".join(found)


def functions(source):
    """A source's functions: the number of each one's first line, and its name, a method's with its type."""
    within = ""
    for number, line in enumerate(source.split("\n")):
        opened, found = TYPE.match(line), FUNCTION.match(line)
        if opened:
            within = f"{opened[1]}::"
        elif found:
            yield number, f"{within if line.startswith(' ') else ''}{found[1]}"


def contract(source, name):
    """A function's signature and contract."""
    lines, found = source.split("\n"), []
    for number, own in functions(source):
        if own == name:
            for line in lines[number:]:
                found.append(line)
                if line.endswith("{") and not re.match(r" *(requires|ensures)\b", line):
                    return "\n".join(found)
    return ""


def module(crate, path, name):
    """The source file of the function of this name whose proofs lie at a path: the folder's, or where it is a method the file that has it."""
    inside = os.path.dirname(os.path.dirname(path))
    while inside and not os.path.isfile(f"{crate}/src/{inside.removeprefix('proofs/')}.rt"):
        inside = os.path.dirname(inside)
    own = [f"{crate}/src/{inside.removeprefix('proofs/')}.rt"] if inside else []
    for file in own + sorted(glob.glob(f"{crate}/src/*.rt")):
        if name in (found for _, found in functions(text(file))):
            return file.removeprefix(f"{crate}/")
    return "src/main.rt" if os.path.isfile(f"{crate}/src/main.rt") else "src/lib.rt"


def place(crate, said, files):
    """What a refusal stands at: a kind of text, its file and its name."""
    at = CONTRACT.match(said)
    if at:
        lines, line = files.get(at[1], text(f"{crate}/{at[1]}")).split("\n"), int(at[2])
        while lines[line - 1].lstrip().startswith("#["):  # a function's attribute stands before it
            line += 1
        names = [name for number, name in functions("\n".join(lines[:line]))]
        return (contract, at[1], names[-1]) if names else None
    at = LAW.match(said)
    if not at or MISSING.search(said):
        return None
    # (a file right in proofs/ has lemmas, whatever its name)
    if os.path.dirname(at[1]) != "proofs" and os.path.basename(at[1]) in ("Answers.antt", "Invariants.antt", "Proof.antt"):
        holder, name = os.path.dirname(at[1]).split("/")[-2:]
        name = f"{holder}::{name}" if holder[0].isupper() else name
        return contract, module(crate, at[1], name), name
    return law, at[1], at[3]


def verdict(crate, edit, said):
    if not said.startswith(REFUSED):
        return "is refused at a false fact"
    try:
        files = edited(edit, crate)
        found = place(crate, said.removeprefix(REFUSED), files)
        if not found:
            return "is refused at a false fact"
        part, file, name = found
        if name not in re.findall(WORD, edit.split("\n")[1]):
            return f"is refused where its second line says, and not at {name}"
        stands = part(text(f"{crate}/{file}"), name)
        if not stands or file in files and part(files[file], name) != stands:
            return f"leaves alone what it is refused by, {name}"
    except (OSError, KeyError, TypeError, IndexError) as error:
        return f"can be applied: {error!r}"
    return ""


said = {(found[1], found[2]): found[3] for line in text(log).split("\n") for found in [SAID.match(line)] if found}
crates = {crate for crate, _ in said}
for path in sorted(glob.glob("crates/*/must-fail/*.edit")):
    crate, name = path.split("/")[1], os.path.basename(path).removesuffix(".edit")
    if (crate, name) not in said:
        if whole or crate in crates:
            print(f"bad must-fail {crate}/{name} was tried")
        continue
    wrong = verdict(f"crates/{crate}", text(path), said[crate, name])
    print(f"bad must-fail {crate}/{name} {wrong}: {said[crate, name]}" if wrong else f"good {crate}/{name}")
PY
}

log=${1:-target/rt-ci.log}
if ! judge "$log" "${1:+part}" >"$work/verdicts"; then
    fail "must-fail: $log and the edits can be read"
fi
good=$(grep -c '^good ' "$work/verdicts")
while read -r verdict name; do
    if [ "$verdict" = bad ]; then
        fail "$name"
    fi
done <"$work/verdicts"
if [ "$good" -gt 0 ]; then
    pass "must-fail: $good edits are refused at the false fact that they name"
fi
finish
