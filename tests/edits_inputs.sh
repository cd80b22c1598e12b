#!/usr/bin/env bash
# Each must-fail edit has an input in docs/PROMISES.md on which the wrong program answers otherwise, and the right program answers it as the page says. An input that
# is no command is said in words, since only a C caller can give it: it is not run. The program `vectors` has to be built, as the gate does.
set -uo pipefail
cd "$(dirname "$0")/.."
export PATH="$PWD/bin:$PATH"
burgee version >/dev/null || exit # builds it, where that is to be done, before anything is compared
. tests/inputs.bash

page=docs/PROMISES.md
status=0
ran=0
fail() {
    echo "$1"
    status=1
}

# The rows of the table of inputs.
rows() {
    sed -n '/^| crate | edit |/,/^$/p' $page | sed '1,2d;/^$/d'
}

# A cell without the spaces around it.
cell() {
    local text=${1# }
    echo "${text% }"
}

while IFS='|' read -r _ crate edit input answer wrong _; do
    name=$(cell "$crate")/$(cell "$edit")
    input=$(cell "$input")
    answer=$(cell "$answer")
    wrong=$(cell "$wrong")
    [ -n "$answer" ] && [ -n "$wrong" ] && [ "$answer" != "$wrong" ] || fail "$name: no two answers in $page"
    [[ $input == '`'*'`' ]] || continue
    ran=$((ran + 1))
    written=$(eval "${input//\`/}" 2>&1)
    written=${written//$'\n'/; }
    answer=${answer//\`/}
    [[ $written == "$answer"* ]] || fail "$name: ${input//\`/} answers $written, and not $answer"
done < <(rows)

diff <(rows | sed 's/^| \([^ ]*\) | \([^ ]*\) .*/\1\/\2/' | sort -u) <(ls crates/*/must-fail/*.edit | sed 's/crates.\(.*\).must-fail\(.*\).edit/\1\2/' | sort -u) ||
    fail "$page has inputs for other edits (<) than there are (>)"
[ $status -eq 0 ] && echo "edit inputs: $ran answered as the page says"
exit $status
