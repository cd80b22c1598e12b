#!/usr/bin/env bash
# crates.txt, the map of crates in README.md and the table of docs/ARCHITECTURE.md agree: each has every crate once, and a crate uses only crates
# that stand below it in the map, or on its line, and above it in the table, or in its row.
# A line of the map is names, what they are, names, what they are, ..; two spaces or more between these, names separated by commas. A name with
# a `/` is a folder. In the table the names of a row stand in backticks in its first column.
set -uo pipefail
cd "$(dirname "$0")/.."

# Lines `map CRATE ROW` and `table CRATE ROW`, rows counted from the bottom layer up.
{
    awk -F '   *' '
        /^## / { inside = $0 == "## The crates" }
        /^```/ { block = !block; next }
        inside && block && $1 != "" {
            row--
            for (i = 1; i <= NF; i += 2) {
                n = split($i, names, ", ")
                for (k = 1; k <= n; k++) if (names[k] !~ /\//) print "map", names[k], row
            }
        }' README.md
    awk -F '|' '
        /^## / { inside = $0 == "## Layers" }
        inside && $2 ~ /`/ {
            row++
            n = split($2, names, "`")
            for (k = 2; k <= n; k += 2) print "table", names[k], row
        }' docs/ARCHITECTURE.md
    for folder in crates/*/; do
        echo "folder $(basename "$folder") 0"
    done
    sed -n 's/^\([a-z0-9_]*\)\( staticlib\)\{0,1\}:/crate \1 /p' crates.txt
} | awk '
    function fail(text) { print text; status = 1 }
    $1 != "crate" {
        if (($1, $2) in at) fail(where[$1] " has " $2 " twice")
        at[$1, $2] = $3
        said[$1 " " $2] = 1
        next
    }
    {
        crates[$2] = 1
        uses[$2] = $0
        count++
    }
    BEGIN {
        where["map"] = "the map of README.md"
        where["table"] = "the table of docs/ARCHITECTURE.md"
        where["folder"] = "crates/"
    }
    END {
        for (c in crates) {
            n = split(uses[c], used, " ")
            for (w in where) {
                if (!((w, c) in at)) { fail(where[w] " lacks " c); continue }
                for (k = 3; k <= n; k++)
                    if (used[k] in crates && (w, used[k]) in at && at[w, used[k]] > at[w, c]) fail(where[w] ": " c " uses " used[k] ", which does not stand lower")
            }
        }
        for (line in said) {
            split(line, part, " ")
            if (!(part[2] in crates)) fail(where[part[1]] " has " part[2] ", which is no line of crates.txt")
        }
        if (!count) fail("crates.txt has no crates")
        if (!status) print "map: " count " crates, ok"
        exit status
    }'
