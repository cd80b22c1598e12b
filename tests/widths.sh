#!/usr/bin/env bash
# No line of programs and definitions is longer than 160 columns, none of proofs longer than 300. (An import is one line, however long it is: `rt fmt` keeps it so.)
set -uo pipefail
cd "$(dirname "$0")/.."
export LC_ALL=C.UTF-8

# COLUMNS FOLDER..
longer() {
    local columns=$1
    shift
    grep -rnE --include='*.rt' --include='*.antt' "^.{$((columns + 1))}" "$@" | grep -vE '^[^:]*:[0-9]*:(pub |ghost )?use ' | cut -c 1-120 | sed "s/^/over $columns columns: /"
}

found=$(longer 160 crates/*/src crates/*/specs; longer 300 crates/*/proofs)
[ -z "$found" ] && echo "widths: ok" && exit 0
printf '%s\n' "$found"
exit 1
