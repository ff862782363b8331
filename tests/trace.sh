#!/usr/bin/env bash
# docs/TRACE.md names what exists: each name in backticks is declared where TRACE says, and each must-fail edit stands in it.
. "$(dirname "$0")/lib.sh"

# The names that a file of antt declares: what its lines begin with, behind 'pub' and its like.
declared() {
    sed -nE 's/^ *((unfoldable|abbrev|pub|record|data) )*([[:alnum:]][^ ]*).*/\3/p' "$@"
}

# Whether a name stands for something: a file, `crate/edit`, `Enum::Variant`, `crate::function`, `crate::Type::method`,
# `crate::module::function`, `Module.definition`, a crate, a module, a law or a field.
stands() {
    local crate=${1%%::*} module=${1%%.*} middle
    case $1 in
    */*) [ -e "$1" ] || [ -e "crates/$1" ] || [ -f "crates/${1%%/*}/must-fail/${1#*/}.edit" ] ;;
    [A-Z]*::*) grep -q -r -w -e "$1" crates/*/src ;;
    *::*::*)
        middle=${1#*::}
        middle=${middle%%::*}
        case $middle in
        [A-Z]*) grep -q -r -E "impl.* $middle\b" "crates/$crate/src" && grep -q -r -w -E "(fn|const) ${1##*::}" "crates/$crate/src" ;;
        *) grep -q -w -E "(fn|struct|enum|const) ${1##*::}" "crates/$crate/src/$middle.rt" ;;
        esac
        ;;
    *::*) grep -q -r -w -E "(fn|struct|enum|const) ${1##*::}" "crates/$crate/src" ;;
    *.*) declared crates/*/specs/"$module.antt" 2>/dev/null | grep -q -x -F -e "${1#*.}" ;;
    *) [ -d "crates/$1" ] || compgen -G "crates/*/*/$1.antt" >/dev/null || grep -q -x -F -e "$1" "$work/declared" ;;
    esac
}

# What stands for no single name: folders of every crate, a form of the language, the end of several names.
OTHERS='^(src|specs|proofs)/$|^\[0; 4096\]$|^…'

find crates -name '*.antt' -exec cat {} + | declared >"$work/declared"
grep -o '`[^`]*`' docs/TRACE.md | tr -d '`' | sort -u | grep -v -E "$OTHERS" >"$work/names"
good=0
while read -r name; do
    if stands "$name"; then
        good=$((good + 1))
    else
        fail "docs/TRACE.md names $name, which isn't there"
    fi
done <"$work/names"
for edit in crates/*/must-fail/*.edit; do
    crate=${edit#crates/}
    name=${crate%%/*}/$(basename "$edit" .edit)
    if ! grep -q -x -F -e "$name" "$work/names"; then
        fail "docs/TRACE.md doesn't name the edit $name"
    fi
done
if [ "$good" -gt 0 ]; then
    pass "docs/TRACE.md: $good names stand for something"
fi
finish
