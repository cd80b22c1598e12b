#!/bin/bash
# Compiles every example against the header and the static library, runs it on its
# .input file if it has one, and compares what it prints with its .expected file. The
# callers run under sanitizers where the compiler has them.
set -euo pipefail

cd "$(dirname "$0")/.."
archive=target/staticlib/libburgee.a
built=target/examples
mkdir -p "$built"

if [ ! -f "$archive" ]; then
    echo "examples: $archive is missing" >&2
    exit 1
fi

flags="-std=c11 -Wall -Wextra -Werror -O2"
sanitizers="-fsanitize=address,undefined -fno-sanitize-recover=all"
if echo 'int main(void) { return 0; }' | gcc $sanitizers -x c - -o "$built/sanitized" 2> /dev/null && "$built/sanitized"; then
    flags="$flags $sanitizers"
fi

failed=0
count=0
if gcc -std=c99 -pedantic -Wall -Wextra -Werror -fsyntax-only -x c include/burgee.h; then
    echo "examples: the header stands alone"
else
    failed=1
fi
if command -v g++ > /dev/null && ! g++ -std=c++11 -pedantic -Wall -Wextra -Werror -fsyntax-only -x c++ include/burgee.h; then
    failed=1
fi
for source in examples/*.c; do
    name=$(basename "$source" .c)
    expected=examples/$name.expected
    if [ ! -f "$expected" ]; then
        echo "examples: $name has no $expected" >&2
        failed=1
        continue
    fi
    input=examples/$name.input
    [ -f "$input" ] || input=/dev/null
    gcc $flags -I include "$source" "$archive" -o "$built/$name"
    status=0
    "$built/$name" < "$input" > "$built/$name.printed" || status=$?
    if [ "$status" -ne 0 ]; then
        echo "examples: $name ended with status $status" >&2
        failed=1
    elif ! diff -u "$expected" "$built/$name.printed" >&2; then
        echo "examples: $name printed something else" >&2
        failed=1
    else
        echo "examples: $name is as expected"
    fi
    count=$((count + 1))
done

if [ "$count" -eq 0 ]; then
    echo "examples: none found" >&2
    exit 1
fi
exit "$failed"
