# Calls of the command line that are tried. A test sources this, tries calls, and ends with `ended NAME`.
set -uo pipefail
cd "$(dirname "${BASH_SOURCE[0]}")/.." || exit
export PATH="$PWD/bin:$PATH"
burgee version >/dev/null || exit # builds it, where that is to be done, before anything is compared
work=$(mktemp -d)
trap 'rm -rf "$work"' EXIT

table=examples/files/yard.table
policy=examples/files/yard.json
log=examples/files/yard.log
input=/dev/null
status=0
tried=0

fail() {
    echo "burgee ${1:0:300}"
    head -c 3000 "$work/written" "$work/complaint"
    status=1
    [ -z "${STOP_AT_FIRST-}" ] || exit 1 # tools/wrong_command_lines.sh
}

# STATUS WORD..: runs burgee on the words; what it writes is in $work/written and $work/complaint.
run() {
    local expected=$1
    shift
    tried=$((tried + 1))
    burgee "$@" >"$work/written" 2>"$work/complaint" <"$input"
    local got=$?
    [ $got -eq "$expected" ] || fail "$*: status $got, not $expected"
}

# Nothing is complained of; a line on a user whom the table does not name is no complaint.
quiet() {
    ! grep -qv '^burgee: the table names no user ' "$work/complaint"
}

answer() {
    run 0 "$@"
    [ -s "$work/written" ] && quiet || fail "$*: no answer, or a complaint"
}

# The answer is what stands on standard input.
answer_is() {
    answer "$@"
    cmp -s - "$work/written" || fail "$*: another answer"
}

refused() {
    run 1 "$@"
    grep -q '^refused ' "$work/written" && quiet || fail "$*: not told as a refusal"
}

# The same of a command whose answer is a text: standard output holds that text or nothing, and a refusal goes to standard error.
refused_aside() {
    run 1 "$@"
    grep -q '^refused' "$work/complaint" && [ ! -s "$work/written" ] || fail "$*: not told as a refusal on standard error alone"
}

# REFUSAL WORD..: refused, and its first line is `refused REFUSAL`.
refused_as() {
    local told=$1
    shift
    refused "$@"
    [ "$(head -n 1 "$work/written")" = "refused $told" ] || fail "$*: not refused $told"
}

complaint() {
    run 2 "$@"
    [ ! -s "$work/written" ] && head -n 1 "$work/complaint" | grep -q '^burgee: ..*' || fail "$*: no complaint, or an answer"
}

misused() {
    complaint "$@"
    grep -q '^Try: burgee help' "$work/complaint" || fail "$*: no hint"
}

# Misused, and how the command is called is told, by lines of its page of help.
misused_as() {
    misused "$@"
    grep '^usage: ' "$work/complaint" | sed 's/^usage: //' >"$work/usage"
    [ -s "$work/usage" ] || fail "$*: no usage"
    burgee help "$1" | sed '/^$/q' | grep -vxFf - "$work/usage" && fail "$*: a usage that its page of help does not have"
}

ended() {
    [ $status -eq 0 ] && echo "$1: $tried calls, ok"
    exit $status
}
