#!/usr/bin/env bash
# Nothing of what is promised can be taken away unseen. tests/exports.py: each exported function has the contract of its call. tests/promises.py: each promise
# has its theorem, and docs/PROMISES.md names all of them and each must-fail edit. tests/assumptions.py: nothing is taken on trust. And each test is a phase
# of the gate. All this is read in the sources; it needs Python 3, and fails without it.
# With `symbols`: the static library has the exported functions and no other symbol, and of the C library it takes memcpy and memset alone.
set -uo pipefail
cd "$(dirname "$0")/.."
export PYTHONDONTWRITEBYTECODE=1
status=0
fail() {
    echo "exports: $1"
    status=1
}

sources() {
    local part test
    for part in exports promises assumptions; do
        python3 tests/$part.py || status=1
    done
    for test in tests/*.sh; do
        grep -q "^phase .* bash $test\( \|$\)" .ci/run || fail "$test is no phase of .ci/run"
    done
}

# NM WORDS..: the symbols that nm lists.
listed() {
    nm "$@" target/staticlib/libburgee.a | awk 'NF > 1 { print $NF }' | sort
}

symbols() {
    local names
    names=$(python3 tests/exports.py --names) && [ -n "$names" ] || fail "no exported function is found"
    diff <(echo "$names") <(listed --extern-only --defined-only) || fail "the exported functions (<) are not the symbols of the library (>)"
    diff <(printf 'memcpy\nmemset\n') <(listed --undefined-only) || fail "the library takes other functions (>) than memcpy and memset (<)"
    [ $status -eq 0 ] && echo "exports: $(wc -l <<<"$names") symbols, ok"
}

case ${1-} in
'') sources ;;
symbols) symbols ;;
*) echo "usage: $0 [symbols]"; exit 2 ;;
esac
exit $status
