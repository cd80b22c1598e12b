#!/usr/bin/env bash
# `burgee log show` and `burgee log pack`: each line there and back, wherever the parts that are read end; the refusals 50 and 51, and of readable text, with their
# lines; what was made before a refusal is printed; the longest lines, and longer ones.
. "$(dirname "$0")/calls.bash"
. tests/inputs.bash

# REFUSAL PRINTED WORD..: refused on standard error, whose first lines are these, after so many lines on standard output.
stops() {
    local told=$1 printed=$2
    shift 2
    run 1 "$@"
    [ "$(head -n "$(wc -l <<<"$told")" "$work/complaint")" = "$told" ] || fail "$*: not refused $told"
    [ "$(wc -l <"$work/written")" -eq "$printed" ] || fail "$*: not $printed lines before"
}
bad='not a line of a log: mode, user, origin and path of a good request, in hex digits, then LF'
form='not a line of the readable form'

# ---- there and back: lines of every length around the end of a part, which the first line shifts
lengths=$(seq 1 3 64)
{
    for n in $lengths; do
        printf 'read [%s] origin [%s] /a[k=%s]/b\n' "$(printf "u%.0s" $(seq "$n"))" "$([ "$n" -gt 32 ] || printf "o%.0s" $(seq "$n"))" "$(printf 'v%.0s' $(seq "$n"))"
        printf 'write [\\]%s\\\\] origin [] /\n' "$n"
    done
} >"$work/few"
for _ in {1..60}; do cat "$work/few"; done >"$work/many"
printf '%s\n' "$LONGEST" | burgee log show - >"$work/longest"
for first in 0 1 3 40; do
    { head -n $first "$work/few" && cat "$work/many" "$work/longest" "$work/few"; } >"$work/readable"
    answer log pack "$work/readable"
    cp "$work/written" "$work/log"
    answer_is log show "$work/log" <"$work/readable"
    input=$work/readable
    answer_is log pack - <"$work/log"
    input=/dev/null
done
[ "$(wc -c <"$work/log")" -gt 200000 ] || fail "the log is shorter than some parts"
answer_is log show <(printf '%s\n' "$LONGEST") <"$work/longest"
[ ${#LONGEST} -eq 18952 ] || fail "the longest line has another length"
run 0 log show /dev/null && [ ! -s "$work/written" ] && [ ! -s "$work/complaint" ] || fail "an empty log is not shown as nothing"
run 0 log pack /dev/null && [ ! -s "$work/written" ] && [ ! -s "$work/complaint" ] || fail "an empty text is not packed to nothing"

# ---- bad lines, each after a good one
good=0101750002016100016200
while read -r line; do
    printf '%s\n%s\n%s\n' $good "$line" $good >"$work/text"
    stops "refused 51 at line 2: $bad"$'\n'"line: $line" 1 log show "$work/text"
done <<END
x
010
0101750002016100016200ff
0001750002016100016200
0301750002016100016200
0100000101610000
01017F0001016100
0101750021$(printf 6f%.0s {1..33})00
0101750001032e2e2e00
010175
END
printf '%s\n\n' $good >"$work/text"
stops "refused 51 at line 2: $bad"$'\n'"line: " 1 log show "$work/text"
printf '%s\n%s' $good $good >"$work/text"
stops "refused 51 at line 2: $bad"$'\n'"line: $good"$'\n''the line has no LF at its end' 1 log show "$work/text"
while read -r line; do
    printf 'read [u] origin [] /\n%s\n' "$line" >"$work/text"
    stops "refused at line 2: $form"$'\n'"line: $line" 1 log pack "$work/text"
done <<'END'
Read [u] origin [] /
read  [u] origin [] /
read [] origin [] /
read [u] origin [] a
read [u] origin [ooooooooooooooooooooooooooooooooo] /
read u origin [] /
0101750000
END
printf 'read [u] origin [] /' >"$work/text"
stops "refused at line 1: $form"$'\n''line: read [u] origin [] /'$'\n''the line has no LF at its end' 0 log pack "$work/text"

# ---- lines that are longer than any good one are refused at once, and not quoted: with an LF, without one, and longer than what is read at once
for length in 18953 65536 1000000; do
    for end in '' '\n'; do
        { echo $good; head -c $length /dev/zero | tr '\0' 0; printf "$end"; } >"$work/text"
        stops "refused 51 at line 2: $bad"$'\n''the line is longer than any good one' 1 log show "$work/text"
        { echo 'read [u] origin [] /'; head -c $length /dev/zero | tr '\0' /; printf "$end"; } >"$work/text"
        stops "refused at line 2: $form"$'\n''the line is longer than any good one' 1 log pack "$work/text"
    done
done

# ---- as many lines as a log may have, and one more
yes 0101750000 | head -n 1000000 >"$work/log"
run 0 log show "$work/log"
cmp -s "$work/written" <(yes 'read [u] origin [] /' | head -n 1000000) || fail "log show: not 1,000,000 lines"
cp "$work/written" "$work/readable"
run 0 log pack "$work/readable"
cmp -s "$work/written" "$work/log" || fail "log pack: not 1,000,000 lines"
many='refused 50: the log has more than 1,000,000 lines'
for more in 0101750000 x; do
    for end in '' '\n'; do
        { cat "$work/log"; printf "$more$end"; } >"$work/text"
        stops "$many" 1000000 log show "$work/text"
        [ "$(wc -l <"$work/complaint")" -eq 1 ] || fail "log show: more is told of one line too many"
    done
done
{ cat "$work/readable"; echo 'read [u] origin [] /'; } >"$work/text"
stops "$many" 1000000 log pack "$work/text"
{ head -n 999999 "$work/log"; echo x; echo x; } >"$work/text"
stops "refused 51 at line 1000000: $bad"$'\n''line: x' 999999 log show "$work/text"

# ---- the memory that is taken does not grow with the log
room() {
    ! grep -q AddressSanitizer target/burgee/program || return 0 # one that tools/unproved.py made takes more
    (ulimit -v 40000 && burgee log "$@" >"$work/written" 2>"$work/complaint") || fail "log $*: more memory than it should need"
}
room show "$work/log"
room pack "$work/readable"

ended log
