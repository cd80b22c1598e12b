#!/bin/sh
# Builds what the tests, the examples and bin/burgee take, and puts it where they take it from: the command line as target/bin/cli, the program of the
# vectors as target/bin/vectors, and crates/burgee_c as target/staticlib/libburgee.a.
#
#     tools/build.sh [cli] [vectors] [library]    proves what is new, by rt, and builds these, or all three
#     tools/build.sh checked                      takes the programs that `rt ci` has just built here, and builds the library over the crates that it has just proved
root=$(CDPATH= cd -P "$(dirname "$0")/.." && pwd) && cd "$root" || exit

# Of the sources, as bin/burgee makes it.
sum() {
    find crates crates.txt toolchain.txt -path 'crates/*/out' ! -path 'crates/*/*/out' -prune -o -type f -exec sha256sum {} + | LC_ALL=C sort | sha256sum
}

# FILE TO: puts a file that was built where it is looked for.
put() {
    mkdir -p "$(dirname "$2")" && cp "$1" "$2.new" && mv -f "$2.new" "$2"
}

# NAME WORD..: proves and builds a program, and runs it on these words.
program() {
    name=$1
    shift
    (cd "crates/$name" && rt run "$@" >/dev/null </dev/null)
}

# Beside the command line stands which sources it is of, and which program that is: bin/burgee takes no other for it.
cli() {
    rm -f target/bin/cli.sum
    of=$(sum)
    "$@" && put crates/cli/out/cli target/bin/cli && printf '%s%s\n' "$of" "$(sha256sum <target/bin/cli)" >target/bin/cli.sum
}

# NAME: whether `rt ci` has built the program here, and nothing has changed since.
checked() {
    if [ ! -x "crates/$1/out/$1" ] || [ ! -e "crates/$1/out/$1.by-rattle" ]; then
        echo "build: rt ci has left no crates/$1/out/$1" >&2
        return 1
    fi
    newer=$(find crates crates.txt -path 'crates/*/out' ! -path 'crates/*/*/out' -prune -o -type f -newer "crates/$1/out/$1" -print)
    [ -z "$newer" ] || { echo "build: changed since rt ci: $newer" >&2; return 1; }
}

library() {
    "$@" && put crates/burgee_c/out/libburgee_c.a target/staticlib/libburgee.a
}
over_kept() {
    (cd crates/burgee_c && rt lib </dev/null)
}
over_checked() {
    python3 tools/static_library.py burgee_c || over_kept
}

[ $# -gt 0 ] || set -- cli vectors library
for part in "$@"; do
    case $part in
    cli) cli program cli -- version || exit ;;
    vectors) program vectors && put crates/vectors/out/vectors target/bin/vectors || exit ;;
    library) library over_kept || exit ;;
    checked)
        cli checked cli || exit
        checked vectors && put crates/vectors/out/vectors target/bin/vectors || exit
        library over_checked || exit
        ;;
    *)
        echo "usage: tools/build.sh [cli] [vectors] [library], or tools/build.sh checked" >&2
        exit 2
        ;;
    esac
done
