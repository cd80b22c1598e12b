#!/usr/bin/env bash
# The command line's tour: each command as it is typed, and what it answers. Where the command line is not built yet, it is built first.
cd "$(dirname "$0")/.." || exit 1
export PATH="$PWD/bin:$PATH"
burgee help > /dev/null || exit 1
rm -f target/tour.*

say() {
    printf '\n%s\n' "$1"
}

try() {
    printf '\n$ %s\n' "$1"
    eval "$1"
}

echo "A rule table: who may read or write which path. Machines get it as lines of hex, people read it as text."
try "burgee table examples/files/yard.table"
try "burgee show examples/files/yard.table"

say "A table with a fault is refused whole, and the line is told. Here a group is missing."
try "grep -v ^0209 examples/files/yard.table | burgee table -"

say "Who is in which group, and may Stevie read this?"
try "burgee groups examples/files/yard.table stevie"
try "burgee verdict examples/files/yard.table stevie read '' /system/aaa"

say "Why not? The rules that match, the best first."
try "burgee explain examples/files/yard.table stevie read '' /system/aaa"

say "And everything beneath a path?"
try "burgee tree examples/files/yard.table stevie read '' /system"
try "burgee tree examples/files/yard.table ann read '' /interfaces/interface"

say "Which rule decided how often, over a log of requests?"
try "burgee season examples/files/yard.table examples/files/yard.log"

say "A policy: which calls a client may make."
try "burgee policy examples/files/yard.json"
try "burgee rpc examples/files/yard.json spiffe://yard/dryer /gnoi.system.System/Reboot"

say "A rotation: a new table is tried while the old one is kept. Here there was none, so closing it denies everything again."
try "burgee rotate new target/tour.rotation table"
try "burgee rotate start target/tour.rotation | grep rotation"
try "burgee rotate upload target/tour.rotation examples/files/yard.table | grep candidate"
try "burgee rotate verdict target/tour.rotation ann read '' /interfaces/interface/state"
try "burgee rotate close target/tour.rotation | grep candidate"
try "burgee rotate verdict target/tour.rotation ann read '' /interfaces/interface/state"

say "More: burgee help, docs/SAFETY-OFFICER.md"
