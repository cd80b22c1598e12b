#!/usr/bin/env bash
# edits.sh [LOG]: each must-fail edit was refused at a fact, in a proof that stands. LOG is what `rt ci` (or `rt must-fail`) said; without it `rt must-fail` is run.
# Not at a name that cannot be found, which a slip in the edit, or a proof file that no longer fits, would cause as well; not at a limit of the prover. And not
# only since no proof is found of a function that has none of its own: of such a function a search is tried, which might find none for a right program of that
# shape either. (An edit that only exchanges words has the program itself as that right one.)
set -uo pipefail
cd "$(dirname "$0")/.."
work=$(mktemp -d)
trap 'rm -rf "$work"' EXIT
log=${1-}
if [ -z "$log" ]; then
    log=$work/log
    rt must-fail >"$log" 2>&1
fi

# EDIT old|new: the text that it takes away, or puts there instead, each word as `w`.
shape() {
    sed -n "s/^$2: *//p" "$1" | sed 's/[A-Za-z0-9_]\+/w/g'
}

# FILE LINE: the type in whose `impl` this line stands; nothing where it stands in none. What stands in an item is indented.
impl_of() {
    head -n "$2" "$1" | sed -n '/^impl\|^}/h; ${g; s/^impl\(<[^>]*>\)\? *\(.* for \)\?\([A-Za-z0-9_]*\).*/\3/p}'
}

# CRATE PLACE: whether the function at this place, FILE:LINE:.., has answers of its own, in a folder of its name: in that of its type, or else of its module.
has_answers() {
    local crate=$1 file line name module type
    IFS=: read -r file line _ <<<"$2"
    [ -f "crates/$crate/$file" ] || return 1
    name=$(head -n "$line" "crates/$crate/$file" | grep -o '\bfn [a-z_0-9]*' | tail -n 1 | cut -d ' ' -f 2)
    [ -n "$name" ] || return 1
    type=$(impl_of "crates/$crate/$file" "$line")
    if [ -n "$type" ]; then
        [ -d "crates/$crate/proofs/$type/$name" ]
        return
    fi
    module=${file#src/}
    module=${module%.rt}
    case $module in lib | main) module=. ;; esac
    [ -d "crates/$crate/proofs/$module/$name" ] || ls -d "crates/$crate"/proofs/+*/"$module/$name" "crates/$crate"/proofs/+*/"$name" >"$work/found" 2>&1
}

status=0
tried=0
fail() {
    echo "$1"
    status=1
}

for edit in crates/*/must-fail/*.edit; do
    crate=${edit#crates/}
    crate=${crate%%/*}
    name=$crate/$(basename "$edit")
    said=$(grep -F -m 1 "must-fail $name: " "$log") || { fail "$name was not tried"; continue; }
    said=${said#*"must-fail $name: "}
    tried=$((tried + 1))
    case $said in
    'refused, as it must be: '*) said=${said#*: } ;;
    *) fail "$name is not refused at a fact: $said"; continue ;;
    esac
    case $said in
    *'is not in scope'* | *'can be named from here'* | *'has no field'* | *'has no `'*) fail "$name is refused, but not at a fact: $said" ;;
    # What is said of a place in a program is that a goal of it stays open, to which no file has the answer.
    'note: '*)
        said=${said#note: }
        if ! has_answers "$crate" "$said" && [ "$(shape "$edit" old)" != "$(shape "$edit" new)" ]; then
            fail "$name is refused only since no proof is found of a function that has none of its own: a right program of its shape might be refused too: $said"
        fi
        ;;
    esac
done

[ $tried -gt 0 ] || fail "there are no edits"
[ $status -eq 0 ] && echo "edits: $tried refused at a fact"
exit $status
