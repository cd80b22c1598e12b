#!/usr/bin/env bash
# The toolchain is the one that toolchain.txt pins: the proofs were written for it, and another may refuse them. The version of the product is
# the same in the header, in the newest entry of the changelog and in the Rust package.
set -uo pipefail
cd "$(dirname "$0")/.."
status=0

pinned=$(cat toolchain.txt)
found=$(rt version)
if [ "$found" != "$pinned" ]; then
    echo "the toolchain here is: $found"
    echo "toolchain.txt pins:    $pinned"
    echo "Use that one; or, to change to the one here, prove everything with it and run: rt version > toolchain.txt"
    status=1
fi

header=$(sed -n 's/^#define BURGEE_VERSION_STRING "\(.*\)"$/\1/p' include/burgee.h)
changelog=$(sed -n 's/^## \[\([0-9][0-9.]*\)\].*/\1/p' CHANGELOG.md | head -n 1)
rust=$(sed -n 's/^version = "\(.*\)"$/\1/p' rust/Cargo.toml)
if [ -z "$header" ] || [ "$header" != "$changelog" ] || [ "$header" != "$rust" ]; then
    echo "the version is $header in include/burgee.h, $changelog in CHANGELOG.md, $rust in rust/Cargo.toml"
    status=1
fi

number=$(sed -n 's/^#define BURGEE_VERSION \([0-9]*\)$/\1/p' include/burgee.h)
IFS=. read -r major minor patch <<<"$header"
if [ "$number" != $((major * 10000 + minor * 100 + patch)) ]; then
    echo "include/burgee.h: BURGEE_VERSION is $number, and BURGEE_VERSION_STRING $header"
    status=1
fi

[ $status -eq 0 ] && echo "versions: $found; burgee $header, ok"
exit $status
