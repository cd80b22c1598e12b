#!/usr/bin/env bash
# `burgee report` and `burgee season`: the counts, wherever the parts that are read end; both sides of the longest log, and of the longest line; each refusal on
# standard error, with its line, alike by both; a table that is refused before its log is looked at; what is told of a count that takes long, and where.
. "$(dirname "$0")/calls.bash"
. tests/inputs.bash

bad='not a line of a log: mode, user, origin and path of a good request, in hex digits, then LF'
printf '%s\n' 010276310000000000000001 020167 0301670175 04010101016701720001016101016b012a >"$work/table"
permitted=0101750002016100016200 # u reads /a/b
denied=0101760000                # v reads /
written=0201750000               # u writes /

# N LINE: the line so many times.
repeat() { awk -v n="$1" -v line="$2" 'BEGIN { while (n-- > 0) print line }'; }
# LINE=COUNT ..: the report in which these lines have these numbers, and all others 0.
figures() {
    for figure in "$@"; do echo "${figure%=*} ${figure#*=}"; done | awk '{ n[$1] = $2 } END { for (i = 1; i <= 262; i++) print n[i] + 0 }'
}
# CELL CELL CELL CELL CELL CELL: the report and the page on the log `log` have these cells, and of the one rule, which permits reads, the count of the first.
counted() {
    answer_is report "$work/table" "$work/log" < <(figures "1=$1" "257=$1" "258=$2" "259=$3" "260=$4" "261=$5" "262=$6")
    answer season "$work/table" "$work/log"
    awk -v cells="$*" '
        /^ .*#/ { count = $1 }
        /^(read|write) / { cell = cell " " $2 " " $3 " " $4 }
        END { exit " " cells != cell || count + 0 != cells + 0 }' "$work/written" || fail "season: other cells than $*"
}
# REFUSAL LINE WORD..: refused so by both commands, the line is shown, and standard output stays empty.
told() {
    for command in report season; do
        refused_aside $command "${@:3}"
        printf 'refused %s\n%s' "$1" "$2" | cmp -s - "$work/complaint" || fail "$command ${*:3}: not refused $1"
    done
}

# ---- counts
echo $permitted >"$work/log"
answer_is report "$work/table" "$work/log" < <(figures 1=1 257=1)
input=$work/log
answer_is report "$work/table" - < <(figures 1=1 257=1)
input=$work/table
answer_is report - "$work/log" < <(figures 1=1 257=1)
input=/dev/null
answer_is report "$work/table" /dev/null < <(figures)

# ---- the page
answer_is season "$work/table" "$work/log" <<'END'
requests 1

  count   share  bar                                       rule  action  id
      1  100.0%  ########################################     0  permit  r

A share is of all requests, rounded down; a bar is of the largest count.

rules that never decided
  rule  action  id
  none

          permit   denied by rule  denied by default        all
read           1                0                  0          1
write          0                0                  0          0
all            1                0                  0          1
END
mv "$work/written" "$work/page"
input=$work/log
answer_is season "$work/table" - <"$work/page"
input=$work/table
answer_is season - "$work/log" <"$work/page"
input=/dev/null
answer_is season "$work/table" /dev/null <<'END'
requests 0

  count   share  bar                                       rule  action  id
  none

A share is of all requests, rounded down; a bar is of the largest count.

rules that never decided
  rule  action  id
     0  permit  r

          permit   denied by rule  denied by default        all
read           0                0                  0          0
write          0                0                  0          0
all            0                0                  0          0
END

# ---- calls that are not understood
for command in report season; do
    misused_as $command
    misused_as $command "$work/table"
    misused_as $command "$work/table" "$work/log" more
    misused_as $command - -
done

# ---- parts: 65,536 bytes are read at once, and lines of 23 and 11 bytes end anywhere
for lines in 2848 2849 2850 20000; do
    { repeat $lines $permitted; repeat 7 $denied; repeat $((lines / 2)) $written; echo "$LONGEST"; repeat 3 $permitted; } >"$work/log"
    counted $((lines + 3)) 0 8 0 0 $((lines / 2))
    echo 01 >>"$work/log"
    told "51 at line $((lines + 7 + lines / 2 + 5)): $bad" $'line: 01\n' "$work/table" "$work/log"
done
# a line that ends a byte before the end of a part, with it, and a byte after it; then the log ends, goes on, or is bad
for ends in '2846 7' '2847 5' '2848 3'; do
    read -r reads writes <<<"$ends"
    { repeat $reads $permitted; repeat $writes $written; } >"$work/log"
    counted $reads 0 0 0 0 $writes
    repeat 9 $denied >>"$work/log"
    counted $reads 0 9 0 0 $writes
    { repeat $reads $permitted; repeat $writes $written; echo 01; } >"$work/log"
    told "51 at line $((reads + writes + 1)): $bad" $'line: 01\n' "$work/table" "$work/log"
    { repeat $reads $permitted; repeat $writes $written | head -c -1; } >"$work/log"
    told "51 at line $((reads + writes)): $bad" "line: $written"$'\nthe line has no LF at its end\n' "$work/table" "$work/log"
done

# ---- the longest log, and one line more, also where that is bad or has no LF
repeat 1000000 $written >"$work/log"
counted 0 0 0 0 0 1000000
for line in "$written"$'\n' $'\n' x; do
    { cat "$work/log" && printf %s "$line"; } >"$work/longer"
    told '50: the log has more than 1,000,000 lines' '' "$work/table" "$work/longer"
done
{ head -n 999999 "$work/log" && echo 01; } >"$work/longer"
told "51 at line 1000000: $bad" $'line: 01\n' "$work/table" "$work/longer"

# ---- bad lines: no LF, no digits, longer than any good line, without an end
printf %s $permitted >"$work/log"
told "51 at line 1: $bad" "line: $permitted"$'\nthe line has no LF at its end\n' "$work/table" "$work/log"
printf '%s\n\n' $permitted >"$work/log"
told "51 at line 2: $bad" $'line: \n' "$work/table" "$work/log"
head -c 200000 /dev/zero | tr '\0' 0 >"$work/log"
told "51 at line 1: $bad" "line: $(head -c 65536 "$work/log")"$'\nthe line has no LF at its end\n' "$work/table" "$work/log"

# ---- a table that is refused, and files that are not there
sed '$s/..$//' "$work/table" >"$work/faulty"
for command in report season; do
    run 1 $command "$work/faulty" "$work/none"
    grep -q '^refused 3 at line 4: ' "$work/complaint" && [ ! -s "$work/written" ] || fail "$command: a faulty table"
    for words in "$work/none $work/log" "$work/table $work/none" "$work/table $work" "$work $work/log"; do
        # shellcheck disable=SC2086
        complaint $command $words
        [ "$(wc -l <"$work/complaint")" -eq 1 ] || fail "$command $words: more than one complaint"
    done
done

# ---- a count that takes longer than a second tells how far it is, where standard error is a terminal; of one that is quick nothing is told
# SECONDS: a log of two parts and a bit, the second of which comes so much later.
slow() { repeat 6000 $written; sleep "$1"; repeat 8000 $written; }
slow 2.1 | python3 tests/terminal.py burgee report "$work/table" - >"$work/written" 2>"$work/complaint"
cmp -s "$work/written" <(figures 262=14000) || fail "report: another answer on a terminal"
cmp -s "$work/complaint" <(echo 'burgee: lines counted so far: 11914') || fail "report: not told how far it is"
slow 0 | python3 tests/terminal.py burgee season "$work/table" - >"$work/page" 2>"$work/complaint"
[ ! -s "$work/complaint" ] || fail "season: told how far it is in the first second"
slow 2.1 | burgee season "$work/table" - 2>"$work/complaint" | cmp -s - "$work/page" || fail "season: another page of a log that comes late"
[ ! -s "$work/complaint" ] || fail "season: told how far it is, and not on a terminal"

ended season
