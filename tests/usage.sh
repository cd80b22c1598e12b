#!/usr/bin/env bash
# The exit status of the command line, and what it writes where: an answer and a refusal to standard output; for a call that is not understood,
# or a file that cannot be read or written, nothing there, a complaint on standard error, and a hint where help tells more.
. "$(dirname "$0")/calls.bash"

misused
misused no-such-command
misused help no-such-command
misused help table more
for command in table show pack policy groups verdict tree explain path rpc log rotate; do
    answer help $command
    misused_as $command
    misused_as $command 1 2 3 4 5 6 7 8
done
misused_as path $table /
misused_as log neither $table
misused_as path write 0
misused_as path write zz
for command in verdict tree explain; do
    misused_as $command $table ann neither '' /
done
misused_as rpc - '' / -
# One line where one is enough: that of the command, or of the step.
while read -ra words; do
    misused_as "${words[@]}"
    [ "$(wc -l <"$work/usage")" -eq 1 ] && grep -q "^burgee ${words[*]} " "$work/usage" || fail "${words[*]}: another usage"
done <<'END'
show
pack
verdict
path read
path write
log show
log pack
rotate new
rotate upload
rotate rpc
END

# The page of a command by its name, or by --help or -h as its one word; elsewhere that is a name.
for command in table show pack policy groups verdict tree explain report report-sum season path rpc log rotate version; do
    for word in --help -h; do
        answer_is $command $word < <(burgee help $command)
    done
done
for word in help --help -h; do
    answer_is $word < <(burgee help)
    answer_is $word --help < <(burgee help)
done
run 0 verdict $table --help read '' /
cmp -s "$work/written" <(printf 'deny\ndefault\n') || fail "verdict of a user named --help: another answer"
run 0 groups $table -h
cmp -s "$work/written" <(echo 'groups 0') || fail "groups of a user named -h: another answer"
misused_as table $table --help
complaint verdict --help ann read '' /

answer help version
version="burgee $(sed -n 's/^#define BURGEE_VERSION_STRING "\(.*\)"$/\1/p' include/burgee.h)"
for command in version --version; do
    answer_is $command <<<"$version"
    misused $command more
    grep -qx 'usage: burgee version' "$work/complaint" || fail "$command more: another usage"
done

# What the page says of the exit status, which this tries.
burgee help | grep -A 1 '^The exit status' | cmp -s - <(
    echo 'The exit status is 0 for an answer, 1 for a refusal, 2 for a call that is not understood'
    echo 'or a file that cannot be read or written, 3 where the program cannot be built or does not end as it should.'
) || fail "help: another exit status"

# Where the answer cannot be written: one complaint, whatever was to be written; what was written is a beginning of the answer.
lost() {
    local got=$?
    tried=$((tried + 1))
    [ $got -eq 2 ] && grep -qxF "burgee: standard output: $1" "$work/complaint" && [ "$(wc -l <"$work/complaint")" -eq 1 ] ||
        fail "$2: status $got for an answer that cannot be written"
}
: >"$work/written"
printf 'read [ann] origin [] /\n' >"$work/requests"
if [ -w /dev/full ]; then
    for command in "table $table" "table $policy" "show $table" "log pack $work/requests" "report $table $log" "season $table $log" "explain $table ann write x /" "path read /" "help" "help rotate" "version"; do
        # shellcheck disable=SC2086
        burgee $command >/dev/full 2>"$work/complaint"
        lost 'No space left on device' "$command"
        # shellcheck disable=SC2086
        burgee $command >/dev/full 2>"$work/complaint" <&-
        lost 'No space left on device' "$command, without standard input"
    done
fi
(trap '' XFSZ && ulimit -f 1 && burgee help rotate >"$work/short" 2>"$work/complaint")
lost 'File too large' 'help rotate, of which 1,024 bytes can be written'
burgee help rotate | head -c 1024 | cmp -s - "$work/short" || fail 'help rotate: not the beginning of the page'
{ sleep 0.2 && burgee help; } 2>"$work/complaint" | : # nobody reads it any more
grep -q 'did not end' "$work/complaint" && fail "help: told as a fault, where nobody reads it"
burgee table $table >&- 2>"$work/complaint"
[ $? -eq 2 ] && [ -s "$work/complaint" ] || fail "table: standard output is closed"

# Standard input that is closed is complained of, and no file that was opened before is read for it.
closed() {
    tried=$((tried + 1))
    burgee "$@" >"$work/written" 2>"$work/complaint" <&-
    [ $? -eq 2 ] && [ ! -s "$work/written" ] && grep -qx 'burgee: -: Bad file descriptor' "$work/complaint" || fail "$*: standard input is closed"
}
closed table -
closed report $table -
closed season - $log
closed rpc $policy '' / -
closed report-sum examples/files/week1.report -
rm -f "$work/rotation"
burgee rotate new "$work/rotation" policy >"$work/written"
closed rotate rpc "$work/rotation" '' / -
burgee report $table $log <&- | cmp -s - <(burgee report $table $log) || fail "report: another answer where standard input is closed"

for command in table show pack policy; do
    complaint $command "$work/none"
    complaint $command "$work"
done
complaint groups "$work/none" ann
complaint explain "$work/none" ann read '' /
complaint rpc "$work/none" '' /
complaint rpc $policy '' / "$work/none"

answer table $table
answer verdict $table ann read '' /
answer rpc $policy '' /
refused table $policy
refused_aside show $policy
refused_aside pack $table
refused policy $table
refused groups $table ''
refused verdict $table ann read '' no-path
refused path read ''
refused path write 01

ended usage
