#!/usr/bin/env bash
# Runs every command that a document or a page of help shows, at the top of the repository, and compares what it writes with what is shown.
# A shown command is a line `$ COMMAND` in a fenced block of *.md or docs/*.md, or in a page of help; what follows, up to the next such
# line or the end of the block (or of the page), is what it writes. A block of C has to stand in one of the examples, which are compiled and
# run elsewhere. The tour is run too, and compared with examples/tour.expected.
set -uo pipefail
cd "$(dirname "$0")/.."
export PATH="$PWD/bin:$PATH"
burgee version >/dev/null || exit # builds it, where that is to be done, before anything is compared
work=$(mktemp -d)
trap 'rm -rf "$work"' EXIT

failed=0
ran=0

# The shown commands of a text on standard input, one to a file: the command, then what it writes.
split() {
    awk -v out="$1" '
        /^```/ { inside = !inside; shown = 0; next }
        !inside && fenced { next }
        /^\$ / { shown = 1; n++; file = sprintf("%s.%03d", out, n); print substr($0, 3) > file; next }
        shown { print > file }
    ' fenced="$2"
}

try() {
    local command
    command=$(head -n 1 "$1")
    tail -n +2 "$1" > "$work/expected"
    bash -c "$command" > "$work/written" 2>&1
    ran=$((ran + 1))
    if ! cmp -s "$work/expected" "$work/written"; then
        failed=1
        echo "$2 shows another answer to: $command"
        diff "$work/expected" "$work/written"
    fi
}

# Each block of C of a document, one to a file.
split_c() {
    awk -v out="$1" '
        /^```c$/ { n++; file = sprintf("%s.%03d", out, n); next }
        /^```/ { file = "" }
        file != "" { print > file }
    '
}

stands_in_an_example() {
    local example
    for example in examples/*.c; do
        [[ $(cat "$example") == *"$(cat "$1")"* ]] && return 0
    done
    return 1
}

for document in *.md docs/*.md; do
    name=$(basename "$document")
    split "$work/$name" 1 < "$document"
    for shown in "$work/$name".*; do
        [ -e "$shown" ] && try "$shown" "$document"
    done
    split_c "$work/c-$name" < "$document"
    for block in "$work/c-$name".*; do
        if [ -e "$block" ] && ! stands_in_an_example "$block"; then
            failed=1
            echo "$document shows C that stands in no example:"
            cat "$block"
        fi
    done
done

if ! bash examples/tour.sh | diff examples/tour.expected -; then
    failed=1
    echo "the tour shows something else than examples/tour.expected"
fi

for command in $(burgee help | awk '/^burgee [a-z]/ && $2 != "help" { print $2 }' | sort -u); do
    burgee help "$command" | split "$work/help-$command" 0
    for shown in "$work/help-$command".*; do
        if [ -e "$shown" ]; then
            try "$shown" "burgee help $command"
        else
            failed=1
            echo "burgee help $command shows no example"
        fi
    done
done

echo "$ran shown commands run"
exit $failed
