#!/usr/bin/env bash
# Each command that saves a file is stopped at each of its system calls, by a kill, an error, a full disk, a limit (tests/stops.c): the file is then as before or
# as after the command. In memory, where there is room, since a disk is flushed thousands of times.
. "$(dirname "$0")/calls.bash"
rm -rf "$work"
work=$(mktemp -d -p "$([ -d /dev/shm ] && [ -w /dev/shm ] && echo /dev/shm || echo "${TMPDIR:-/tmp}")")
mkdir "$work/alone"
file=$work/alone/file
gcc -O1 -Wall -Wextra -o "$work/stops" tests/stops.c || exit
program=target/burgee/program
runs=0

# OLD NEW WORD..: the command that makes NEW of OLD (- for no file), both in $work.
saves() {
    local old=$1 new=$2 count
    shift 2
    rm -f "$file"
    [ "$old" = - ] || { cp "$work/$old" "$file" && old=$work/$old; }
    answer "$@"
    cp "$file" "$work/$new"
    if ! count=$("$work/stops" saves "$file" "$old" "$work/$new" $program "$@"); then
        status=1
    fi
    runs=$((runs + count))
}

burgee show $table >"$work/readable"
sed 's/2026-11/2026-12/' "$work/readable" >"$work/readable2"
burgee pack "$work/readable2" >"$work/next.table"
saves - new rotate new "$file" table
count=$("$work/stops" keeps "$file" $program rotate new "$file" table) || status=1
runs=$((runs + count))
saves new started rotate start "$file"
saves started first rotate upload "$file" $table
saves first second rotate upload "$file" "$work/next.table"
saves second closed rotate close "$file"
saves second live rotate finalize "$file"
cat "$work/live" $table >"$work/longer"
saves longer longer2 rotate start "$file"
saves - packed pack "$work/readable" "$file"
saves packed packed2 pack "$work/readable2" "$file"
for pair in "first second" "second live" "second closed" "packed packed2" "longer longer2"; do
    read -r a b <<<"$pair"
    cmp -s "$work/$a" "$work/$b" && fail "$pair: the same"
done

[ $status -eq 0 ] && echo "stops: $runs runs, ok"
exit $status
