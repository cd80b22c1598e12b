#!/usr/bin/env bash
# The C header, as hard as the library: tests/header.c and tests/header_wrappers.c try every constant, reader, wrapper and call, as C99 and as C++,
# with all warnings as errors, and with sanitizers where the compiler has them. Each name that the header gives is named in those files; its words for
# refusals are those of the command line; its declarations are the exported functions of crates/burgee_c.
# With an argument, the folder of another header: that one is tried, as C99 alone and without warnings. Status 1: it is wrong; 2: it does not compile.
set -uo pipefail
cd "$(dirname "$0")/.."
include=${1:-include}
header=$include/burgee.h
archive=target/staticlib/libburgee.a
work=$(mktemp -d)
trap 'rm -rf "$work"' EXIT

status=0
fail() {
    echo "header: $1"
    status=1
}

[ -f $archive ] || { echo "header: $archive is missing"; exit 2; }

# ---- the program

# Lines `{NUMBER, "WORDS"},` of the lines `NN WORDS\n\` that the command line looks up.
sed -n 's/^ *\(b"\)\?0*\([0-9]\{1,2\}\) \(.*\)\\n.*/{\2, "\3"},/p' "$(grep -l 'b"01 the table text' crates/*/src/*.rt)" >"$work/command_line_refusals.inc"

# COMPILER..: compiles the tests by it, and runs them.
try() {
    "$@" -I "$include" -I tests -I "$work" tests/header.c tests/header_wrappers.c -x none $archive -o "$work/header" || { echo "header: refused by: $*"; exit 2; }
    "$work/header" >"$work/told" || { fail "wrong, by: $*"; cat "$work/told"; }
}

warnings="-Wall -Wextra -Wconversion -Wsign-conversion -Wshadow -Wcast-qual -pedantic -Werror"
sanitizers="-fsanitize=address,undefined -fno-sanitize-recover=all"
sanitized() {
    echo 'int main(void) { return 0; }' | gcc $sanitizers -x c - -o "$work/sanitized" 2>"$work/told" && "$work/sanitized"
}

if [ $# -eq 1 ]; then
    try gcc -std=c99
    [ $status -eq 0 ] || exit 1
else
    try gcc -std=c99 $warnings
    sanitized && try gcc -std=c11 $warnings -O2 $sanitizers
    command -v g++ >/dev/null && try g++ -std=c++11 $warnings -x c++
fi

# ---- its names and declarations

code=$(sed 's:/\*.*\*/::; /\/\*/,/\*\//d' "$header" | tr -s '\n ' '  ')

names() {
    sed -n 's/^#define \(BURGEE_[A-Z_]*\) .*/\1/p' "$header"
    grep -o '\bburgee_[a-z_]*(' <<<"$code" | tr -d '('
}
for name in $(comm -23 <(names | sort -u) <(grep -ohi '\bburgee_[a-z_]*' tests/header.c tests/header_wrappers.c | sort -u)); do
    fail "$name is not tried in tests/header.c"
done

# A slice is a pointer and a length in C.
exported() {
    cat crates/burgee_c/src/*.rt | tr -s '\n ' '  ' | grep -o 'pub extern "C" fn burgee_[a-z_]*([^)]*)' | sed '
        s/pub extern "C" fn /uint64_t /
        s/\([a-z_]*\): &mut \[u8\]/uint8_t *\1, size_t \1_len/g
        s/\([a-z_]*\): &\[u8\]/const uint8_t *\1, size_t \1_len/g
        s/\([a-z_]*\): u32/uint32_t \1/g
        s/[a-z_]*: &mut Record/burgee_record *record/
        s/( */(/; s/,* *)$/);/' | sort
}
declared() {
    grep -o 'uint64_t burgee_[a-z_]*([^)]*);' <<<"$code" | sort
}
[ "$(exported | wc -l)" -gt 0 ] && diff <(exported) <(declared) || fail "the declarations are not the exported functions (<)"

[ $status -eq 0 ] && echo "header: $(cat "$work/told"), ok"
exit $status
