#!/usr/bin/env bash
# Every limit stands once, in the crate `limits`: as a definition (specs/Limits.antt; the sizes that follow from them in specs/Sizes.antt) and as a
# constant (src/lib.rt), which agree. The C header, the Rust implementation, the documents and the refusals that the command line prints say the same
# numbers. No other crate has the literal of a limit, or of a size that follows from one, in its programs or definitions. To see where a literal
# stands: bash tests/limits.sh 9377
set -uo pipefail
cd "$(dirname "$0")/.."
shopt -s nullglob extglob

programs=crates/limits/src/lib.rt
definitions='crates/limits/specs/Limits.antt crates/limits/specs/Sizes.antt'

# NUMBER: the places of this literal in programs, definitions and proofs, and nothing else is done.
if [ $# -eq 1 ]; then
    grep -rnwE "$1" crates/*/src crates/*/specs crates/*/proofs
    exit
fi

status=0
tried=0
fail() {
    echo "$1"
    status=1
}

# ---- the constants, and what their names stand for

declared_constants() {
    sed 's://.*::' $programs | tr '\n' ' ' | tr ';' '\n' | sed -n 's/.*pub const \([A-Z_]*\): u[a-z0-9]* = \(.*\)$/\1 \2/p'
}

# A definition's name in capitals is the constant's: max_keys, MAX_KEYS.
declared_definitions() {
    sed -n 's/^\([a-z][a-z_]* = ..*\)$/\1/p' $definitions | tr 'a-z' 'A-Z' | sed 's/ = / /'
}

# Lines NAME EXPRESSION, each naming only what stands before it: lines NAME VALUE.
computed() {
    local name expression
    while read -r name expression; do
        printf -v "$name" '%d' "$((expression))" && echo "$name ${!name}"
    done
}

constants=$(declared_constants | computed)
defined=$(declared_definitions | computed)
if [ -z "$defined" ] || ! diff <(echo "$defined") <(echo "$constants" | grep -v '^CLEAR '); then
    fail "$programs and $definitions differ"
fi

declare -A limit
while read -r name value; do
    limit[$name]=$value
done <<<"$constants"

cat crates/*/specs/Refusal.antt | grep -qx "clear = ${limit[CLEAR]}" || fail "CLEAR is not the number of \`clear\`, \"no refusal number\""

# ---- the header and the Rust implementation: each of their constants, and the limit that it is

# FILE NAME VALUE LIMIT
agree() {
    tried=$((tried + 1))
    [ -n "$4" ] && [ "${limit[$4]:-}" = "$3" ] || fail "$1: $2 is $3, and ${4:-no limit} is ${limit[${4:-none}]:-nothing}"
}

while read -r name value; do
    case $name in
    STORE_LEN) to=STORE_LENGTH ;;
    *_MAX) to=MAX_${name%_MAX} ;;
    *) to= ;;
    esac
    agree include/burgee.h "$name" "$value" "$to"
done < <(sed -n 's/^#define BURGEE_\([A-Z_]*_\(MAX\|LEN\)\) \([0-9]*\)u.*/\1 \3/p' include/burgee.h)

# Lines NAME VALUE, with a prefix while they are computed: GROUPS is a name of the shell's own.
rust_limits() {
    sed -n 's/\([0-9]\)_\([0-9]\)/\1\2/g; s/^pub const \([A-Z_]*\): usize = \(.*\);/\1 \2/p' rust/src/limits.rs |
        sed 's/[A-Z][A-Z_]*/RUST_&/g' | computed | sed 's/^RUST_//'
}

while read -r name value; do
    case $name in
    LONG_STRING) to=MAX_STRING ;;
    JSON_DEPTH) to=MAX_DEPTH ;;
    POLICY_RULES) to=MAX_LIST_RULES ;;
    POLICY_ENTRIES) to=MAX_ENTRIES ;;
    SLOT) to=SLOT_LENGTH ;;
    REPORT_LINES) to=$name ;;
    *) to=MAX_$name ;;
    esac
    agree rust/src/limits.rs "$name" "$value" "$to"
done < <(rust_limits)

expected=$(($(grep -c '^#define BURGEE_[A-Z_]*_\(MAX\|LEN\) ' include/burgee.h) + $(grep -c '^pub const ' rust/src/limits.rs)))
[ $tried -ge 20 ] && [ $tried -eq $expected ] || fail "$tried constants of include/burgee.h and rust/src/limits.rs were compared, of $expected"

# ---- sentences of documents and printed refusals, a limit's name in braces for its number

# 32768 as 32,768, 1000000 as 1,000,000
written() {
    if [ "$1" -lt 1000 ]; then echo "$1"; else printf '%s,%03d\n' "$(written $(($1 / 1000)))" $(($1 % 1000)); fi
}

# FILE: as one line, without what begins a line of a comment
flat() {
    sed 's/^ \* //' "$1" | tr '\n' ' ' | tr -s ' '
}

# FILE, and sentences on standard input
says() {
    local text sentence name
    text=$(flat "$1")
    while read -r sentence; do
        tried=$((tried + 1))
        while [[ $sentence =~ \{([A-Z_]+)\} ]]; do
            name=${BASH_REMATCH[1]}
            sentence=${sentence//"{$name}"/$(written "${limit[$name]:-0}")}
        done
        [[ $text == *"$sentence"* ]] || fail "$1 does not say: $sentence"
    done
}

says docs/FORMATS.md <<'END'
At most {MAX_TABLE_TEXT} bytes. One frame a line
| groups, members, rules | {MAX_GROUPS}, {MAX_MEMBERS}, {MAX_RULES} |
| elements of a path, keys of an element | {MAX_ELEMENTS}, {MAX_KEYS} |
| version, id, origin | {MAX_SHORT_STRING} bytes; only an origin may be empty |
| every other string | {MAX_STRING} bytes |
A table's readable text has at most {MAX_READABLE_TEXT} bytes.
The longest path has {MAX_PATH_BYTES} bytes.
The longest text has {MAX_PATH_TEXT} bytes.
as one JSON value (RFC 8259) of at most {MAX_POLICY_TEXT} bytes
nested to depth {MAX_DEPTH} at most
At most {MAX_LIST_RULES} rules a list, {MAX_ENTRIES} entries in any other list, {MAX_POLICY_STRING} bytes a string.
at most {MAX_HEADER_LINES} bytes together.
path of a request have at most {MAX_REQUEST_STRING} bytes
| a group count | the count, 0 to {MAX_GROUPS} |
| 1 | table text over {MAX_TABLE_TEXT} bytes (line 0) |
| 11 | store shorter than {STORE_LENGTH} bytes |
length over {SLOT_LENGTH}, candidate while off
| 30 | policy over {MAX_POLICY_TEXT} bytes |
identity or path over {MAX_REQUEST_STRING} bytes or a byte outside 0x20 to 0x7E
or over {MAX_HEADER_LINES} bytes together |
The store is two slots of {SLOT_LENGTH} bytes
then the store's {STORE_LENGTH}.
At most {MAX_LOG_LINES} lines, each a request
a good line has at most {MAX_LOG_LINE} bytes
{REPORT_LINES} lines, each a decimal number
a report has at most {MAX_REPORT} bytes
| 50 | a log of more than {MAX_LOG_LINES} lines
END

says docs/DAEMON.md <<'END'
a store of {STORE_LENGTH} bytes for its policy
`BURGEE_REPORT_MAX`, {MAX_REPORT} bytes
with at most {MAX_LOG_LINES} lines
END

says docs/DECISIONS.md <<'END'
the longest path's {MAX_PATH_BYTES} otherwise
no path result is longer than {MAX_PATH_TEXT}.
The buffer has {MAX_HEADER_LINES} bytes
{MAX_DEPTH} left at the policy
longer than {MAX_LOG_LINE} bytes
END

says include/burgee.h <<'END'
_TABLE_LENGTH 1u /* more than {MAX_TABLE_TEXT} bytes
_STORE 11u /* a store shorter than {STORE_LENGTH} bytes
_POLICY_LENGTH 30u /* more than {MAX_POLICY_TEXT} bytes
how many groups hold the user, 0 to {MAX_GROUPS}.
the store is two slots of {SLOT_LENGTH} bytes
_LOG_LENGTH 50u /* more than {MAX_LOG_LINES} lines
with {REPORT_LINES} lines, each a decimal number
END

# the file of programs that has the refusals in words
refusals=$(grep -l 'b"01 the table text' crates/*/src/*.rt)
[ -f "$refusals" ] || fail "the command line's refusals were not found"
[ -f "$refusals" ] && says "$refusals" <<'END'
01 the table text is over {MAX_TABLE_TEXT} bytes
11 the store is shorter than {STORE_LENGTH} bytes
a user's name has 1 to {MAX_STRING} bytes that print
it has at most {MAX_SHORT_STRING} bytes that print
30 the policy is over {MAX_POLICY_TEXT} bytes
nested to depth {MAX_DEPTH} at most
40 identity or path over {MAX_REQUEST_STRING} bytes
over {MAX_HEADER_LINES} bytes together
50 the log has more than {MAX_LOG_LINES} lines
END

# ---- every number that is written with a comma, in documents, comments and messages, is a limit, or one of these

others() {
    cat <<'END'
4,294,967,295   no length, in a record
43,275          the longest readable text found (tests/readable.sh)
4,096 4,609     keys of the set of members and of member names: sizes of arrays
2,048 2,305     keys of the set of ids, and a short policy text: sizes of arrays
2,731           header lines that fit: the size of an array
131,072         what the command line takes of a file
1,528 2,353     measured: names that found their place taken
1,559 1,956 1,560 1,958      measured: names in the fullest bucket
1,500,000 3,000,000          how many requests were tried
26,915          the bytes of a table that was timed
1,553 1,438     lines of proofs
62,040          measured: the stack of an upload (rust/tests/stack.rs)
60,520          measured: the stack of a season report (rust/tests/stack.rs)
1,000,001       the first line of a log that is one too many, in the customer's words
END
}

known=" $(others | sed 's/   .*//' | tr '\n' ' ') "
for value in "${limit[@]}"; do
    known="$known$(written "$value") "
done
while IFS=: read -r file line number; do
    [[ $known == *" $number "* ]] || fail "$file:$line: $number is not the number of a limit, nor one that this test knows"
done < <(grep -noE '[0-9]+(,[0-9][0-9][0-9])+' README.md CONTRIBUTING.md SECURITY.md docs/!(BENCHMARKS|READING|PORT*).md include/burgee.h rust/README.md rust/src/limits.rs \
    tests/readable.sh $(find crates/*/src crates/*/specs -type f))

# ---- no literal of a limit in programs and definitions

# Literals that are something else: a part of the line, and what they are there.
allowed() {
    cat <<'END'
clear = 255             the definition of "no refusal number"
leb 32 c                a byte that prints
within 32 126           the bytes that print
result < 256            a byte, a bucket
result ≤ 255            the same
b = [0u8; 4]            a number by chance
b < 256                 a byte, a bucket
ltb b 256               a byte
-> [u8; 256]            a value for each byte
[16u8; 256]             the same
n < 16                  a hex digit
Puts 16                 a creation time has 16 digits
then 16                 the same
refusal(r, n, 16)       a refusal number
.refused 16             the same
return 32               the same
512 + (rule             MIXED, 2 from bit 8 of the answer word on
STARTS: usize = 16384   a place's number has the start of its string in 14 bits: the layout of a word
starts = 16384          the same
word_at(b, 16)          where the record's fifth number stands
number_at b 16          the same
slot, 256)              a number's second byte, in the record's file; and so for each of its numbers
kind, 256)
len, 256)
rotating, 256)
byte_of n 256           the same
HASHES: usize = 8192    how many hints the groups' names have: a size of its own
hashes = 8192           the same
path.count < 256        a count of elements, in a byte
result.count < 256      the same
words < 4               arguments of the command line
4 <= t.len() - i        four bytes a turn of a hash
(path_text p) ≤ 13520   a promise says the rules' own number
(path_text p) ≡ 13520   the same
(path_bytes p) ≤ 9377   the same
(path_bytes p) ≡ 9377   the same
zeros 255               lines of a report, in an example
END
}

# The code of programs and definitions, each line after its file and number; comments, strings and what is allowed are taken out.
code() {
    find crates/*/src crates/*/specs -type f \( -name '*.rt' -o -name '*.antt' \) | grep -v '^crates/limits/' | sort |
        ALLOWED=$(allowed | sed 's/   *[^ ].*//') xargs awk '
            BEGIN { n = split(ENVIRON["ALLOWED"], allowed, "\n") }
            FNR == 1 { program = FILENAME ~ /\.rt$/; open = 0 }
            program {
                gsub(/\\\\|\\"/, "")
                if (open && !sub(/^[^"]*"/, "")) $0 = ""; else open = 0
                gsub(/b"[^"]*"/, "")
                sub(/\/\/.*/, "")
                open = open || sub(/b".*/, "")
            }
            !program {
                gsub(/"[^"]*"/, "")
                sub(/(^|[ \t])--([ \t].*)?$/, "")
            }
            {
                for (i = 1; i <= n; i++)
                    while (at = index($0, allowed[i])) $0 = substr($0, 1, at - 1) substr($0, at + length(allowed[i]))
                print FILENAME ":" FNR ":" $0
            }'
}

# Literals that mean a limit wherever they stand: each limit over 128, but for 256 and 65,536, which are also those of bytes and words; one more
# of the long ones, as where a frame has its kind byte; and 255.
wherever=255
# The others mean one as the length of an array, as one side of a comparison, or (but for 4 and 65) as an argument.
compared=
given=
for value in "${limit[@]}"; do
    case $value in
    255 | 65536) ;;
    4 | 65) compared="$compared|$value" ;;
    256 | ? | ?? | 12[0-8]) compared="$compared|$value" given="$given|$value" ;;
    *) wherever="$wherever|$value" ;;
    esac
    [ "$value" -gt 8192 ] && wherever="$wherever|$((value + 1))"
done
compared="(${compared#|})"
given="(${given#|})"

left='(^|[^0-9A-Za-z_.])'
right='([^0-9A-Za-z_]|$)'
literals="$left($wherever)$right|; ($compared|65536)\]|$left$compared <=? |[])0-9a-z] <=? $compared$right|≤ $compared$right|length [^≡]* ≡ $compared$right"
literals="$literals|(ltb|leb) $compared [^0-9]|ltb [a-z] 65536|if [a-z] < 65536|[A-Za-z] $given$right|[(,] ?$given[,)]"

while IFS= read -r found; do
    fail "a limit's literal: ${found:0:200}"
done < <(code | grep -E "^[^:]*:[^:]*:.*($literals)")

[ $status -eq 0 ] && echo "limits: ${#limit[@]} limits, $tried places that say them, ok"
exit $status
