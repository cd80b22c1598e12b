#!/usr/bin/env bash
# Sums of season reports: any number of files, each line at fault, both sides of each limit, and what is told of it.
. "$(dirname "$0")/calls.bash"

first=examples/files/week1.report
second=examples/files/week2.report
largest=18446744073709551615

# The sum of files, line by line, by another program.
sum() {
    paste -d + "$@" | python3 -c 'import sys; [print(sum(map(int, line.split("+")))) for line in sys.stdin]'
}
# The file `report` is the first report with line $1 as $2.
with_line() {
    sed "$1s/.*/$2/" $first >"$work/report"
}
# REFUSAL LINE WORD..: refused by that line, the line itself is shown, and nothing else is printed.
told() {
    refused_aside report-sum "${@:3}"
    printf 'refused %s\n%s' "$1" "$2" | cmp -s - "$work/complaint" || fail "report-sum ${*:3}: not refused $1"
}
no_figure='not a decimal number of 64 bits at most, without leading zeros'

# ---- sums
answer_is report-sum $first <$first
answer_is report-sum $first $second < <(sum $first $second)
answer_is report-sum $second $first $second < <(sum $second $first $second)
many=()
for file in {1..300}; do many+=($first); done
answer_is report-sum "${many[@]}" < <(sum "${many[@]}")
for line in 1 256 262; do
    with_line $line $largest
    answer_is report-sum "$work/report" <"$work/report"
    yes 0 | head -n 262 >"$work/zeros"
    answer_is report-sum "$work/zeros" "$work/report" "$work/zeros" <"$work/report"
    with_line $line 9223372036854775807
    answer_is report-sum "$work/report" "$work/report" < <(sum "$work/report" "$work/report")
done
input=$second
answer_is report-sum $first - < <(sum $first $second)
misused_as report-sum - $first -
input=/dev/null
misused_as report-sum

# ---- lines that are no figure
for line in 1 2 262; do
    for text in '' 00 01 -1 +1 1x ' 1' '1 ' 1.0 a 18446744073709551616 18446744073709551620 99999999999999999999 100000000000000000000; do
        with_line $line "$text"
        told "at line $line of $work/report: $no_figure" "line: $text
" "$work/report"
        told "at line $line of $work/report: $no_figure" "line: $text
" $first "$work/report" $work/none
    done
done
head -c -1 $first >"$work/report"
told "at line 262 of $work/report: $no_figure" 'line: 6
the line has no LF at its end
' "$work/report"
printf '1\r\n' | cat - $first >"$work/report"
told "at line 1 of $work/report: $no_figure" 'line: 1\x0d
' "$work/report"
# A line that is longer than any report.
head -c 70000 /dev/zero | tr '\0' 1 >"$work/report"
told "at line 1 of $work/report: $no_figure" "line: $(head -c 5503 "$work/report")
" "$work/report"

# ---- other numbers of lines
for lines in 0 1 261; do
    head -n $lines $first >"$work/report"
    told "at line $((lines + 1)) of $work/report: a report has 262 lines" '' "$work/report"
done
cat $first $second >"$work/report"
told "at line 263 of $work/report: a report has 262 lines" 'line: 98
' "$work/report"
yes $largest | head -n 262 >"$work/long"
answer_is report-sum "$work/long" <"$work/long"
cat "$work/long" <(echo x) >"$work/report"
told "at line 263 of $work/report: a report has 262 lines" 'line: x
' "$work/report"

# ---- sums that do not fit: the file with which, and the first line. A line that is no figure comes before that.
for line in 2 257 262; do
    with_line $line $largest
    told "at line $line of $second: the sum has more than 64 bits" "line: $(sed -n ${line}p $second)
" "$work/report" $second $first
done
told "at line 1 of $first: the sum has more than 64 bits" 'line: 120
' "$work/long" $first
sed '9s/.*/x/' $first >"$work/report"
told "at line 9 of $work/report: $no_figure" 'line: x
' "$work/long" "$work/report"

# ---- files that cannot be read, also after others
complaint report-sum "$work/none"
complaint report-sum $first $second "$work/none"
complaint report-sum $first "$work"

ended reports
