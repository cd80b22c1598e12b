#!/usr/bin/env bash
# The longest readable text found: every limit reached, every string in bytes that are escaped, every code byte by its longer word. It has 43,275
# bytes, and 43,532 are enough for any table (crates/readable_laws, `accepted-answer`). It is packed to the same table again.
set -uo pipefail
cd "$(dirname "$0")/.."
work=$(mktemp -d)
trap 'rm -rf "$work"' EXIT

awk '
    # the number i as a string of the bytes ] and \, in hex; a length byte and a string
    function name(i, s) { for (i += 2; i > 1; i = int(i / 2)) s = (i % 2 ? "5d" : "5c") s; return s }
    function string(s) { return sprintf("%02x", length(s) / 2) s }
    function filled(n, s) { while (n-- > 0) s = s "5d"; return s }
    BEGIN {
        print "01" string("5d") "0000000000000000"
        for (i = 0; i < 64; i++) print "02" string(name(i))
        for (i = 0; i < 512; i++) print "03" string(name(int(i / 8))) string(name(i % 8))
        for (i = 0; i < 256; i++) print "04010201" string("5d") string(name(i)) string(filled(i < 218 ? 32 : i == 218 ? 4 : 0)) "00"
    }' >"$work/table"
bin/burgee show "$work/table" >"$work/readable"
bin/burgee pack "$work/readable" >"$work/packed"

status=0
[ "$(wc -c <"$work/table")" -eq 32767 ] || { echo "the table has another length"; status=1; }
[ "$(wc -c <"$work/readable")" -eq 43275 ] || { echo "the readable text has another length"; status=1; }
cmp "$work/table" "$work/packed" || status=1
[ $status -eq 0 ] && echo "readable: the longest text, ok"
exit $status
