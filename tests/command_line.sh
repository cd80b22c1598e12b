#!/usr/bin/env bash
# What the command line makes of its words and files, and what it prints: words of any length, as many as a command takes, files that fail while
# they are read, each refusal in words, explanations, groups, the record of a rotation.
. "$(dirname "$0")/calls.bash"

# A rotation of the kind, in files that `rotate show` names on its page of help.
begin() {
    local name
    rotation=()
    for name in $(burgee help rotate | sed -n 's/^burgee rotate show //p'); do
        rm -f "$work/$name"
        rotation+=("$work/$name")
    done
    answer rotate new "${rotation[@]}" "$1"
}
# The words of a step.
step() {
    words=(rotate "$1" "${rotation[@]}" "${@:2}")
}

# ---- as many words as a command takes, no more and no fewer. The last OPTIONAL of these may be left out.
takes() {
    local optional=$1 few
    shift
    for few in $(seq 0 "$optional"); do
        burgee "${@:1:$#-few}" >"$work/written" 2>"$work/complaint" <"$input"
        [ $? -lt 2 ] || fail "${*:1:$#-few}: as many words as it takes"
    done
    misused_as "${@:1:$#-optional-1}"
    misused_as "$@" more
}
burgee show $table >"$work/readable"
printf 'site:north\n' >"$work/headers"
takes 0 table $table
takes 0 show $table
misused_as pack "$work/readable" "$work/packed" more
printf '0103616e6e0000\n' >"$work/log"
printf 'read [ann] origin [] /\n' >"$work/requests"
takes 0 log show "$work/log"
takes 0 log pack "$work/requests"
takes 0 policy $policy
takes 0 groups $table ann
takes 0 path read /
takes 0 path write 01016100
for command in verdict tree explain; do
    takes 0 $command $table ann read '' /
done
takes 1 rpc $policy '' / "$work/headers"
begin table
rm "${rotation[@]}"
step new && misused_as "${words[@]}"
step new table more && misused_as "${words[@]}"
begin table
for name in start close show; do
    step $name
    takes 0 "${words[@]}"
done
step start
answer "${words[@]}"
step upload $table
takes 0 "${words[@]}"
step finalize
takes 0 "${words[@]}"
for name in verdict tree; do
    step $name ann read '' /
    takes 0 "${words[@]}"
done
begin policy
step rpc '' / "$work/headers"
takes 1 "${words[@]}"

# ---- words that are longer than the room for them: never taken for a shorter one, or for none
long=$(printf %05000d 0)
longer=$(printf %070000d 0)
misused "$long"
misused help "$long"
misused_as verdict $table ann "$long" '' /
misused_as rotate "$long" "$work/x"
misused_as path "$long" /
misused_as log "$long" "$work/log"
complaint table "$long"
refused groups $table "$long"
refused_number() {
    refused "${@:2}"
    grep -q "^refused $1[: ]" "$work/written" || fail "${*:2}: not refused with $1"
}
asked() { # the words before a request on a table, and those after it
    refused_number 20 "$@" "$long" read '' /
    refused_number 21 "$@" ann read "$long" /
    refused_number 22 "$@" ann read '' "/$longer"
}
for command in verdict tree explain; do
    asked $command $table
done
refused_number 20 groups $table "$long"
refused_number 22 path read "/$longer"
misused_as path write "$longer"
refused_number 40 rpc $policy "$long" /
refused_number 40 rpc $policy '' "/$long"
begin table
step start && answer "${words[@]}"
step upload $table && answer "${words[@]}"
for name in verdict tree; do
    step $name && asked "${words[@]}"
done
begin policy
step new "$long" && rm "${rotation[@]}" && misused_as "${words[@]}"
begin policy
step start && answer "${words[@]}"
step upload $policy && answer "${words[@]}"
step rpc "$long" / && refused_number 40 "${words[@]}"
step rpc '' "/$long" && refused_number 40 "${words[@]}"

# ---- files that cannot be read: told, and nothing is judged
for file in "$work/none" "$work" "$long"; do
    for command in table show pack policy; do
        complaint $command "$file"
    done
    complaint log show "$file"
    complaint log pack "$file"
    complaint groups "$file" ann
    for command in verdict tree explain; do
        complaint $command "$file" ann read '' /
    done
    complaint rpc "$file" '' /
    complaint rpc $policy '' / "$file"
    step upload "$file" && complaint "${words[@]}"
    step rpc '' / "$file" && complaint "${words[@]}"
done

# ---- a read that fails, be it the first of a file or the last, that finds its end: told, and what was read before is not taken for the file
gcc -O1 -o "$work/stops" tests/stops.c || exit
# The numbers of a call's reads among its system calls.
reads() {
    "$work/stops" list target/burgee/program "$@" 2>&1 >"$work/written" <"$input" | awk '$2 == "read" { print $1 }'
}
started=$(reads version | wc -l) # those that start the program
# READS WORD..: an answer that takes that many reads, and none where one of them fails.
torn() {
    local read all=$1
    shift
    answer "$@"
    mapfile -t -s "$started" numbers < <(reads "$@")
    [ "${#numbers[@]}" -eq "$all" ] || fail "$*: ${#numbers[@]} reads, not $all"
    for read in "${numbers[@]}"; do
        tried=$((tried + 1))
        "$work/stops" fail "$read" 5 target/burgee/program "$@" >"$work/written" 2>"$work/complaint" <"$input"
        [ $? -eq 2 ] && [ ! -s "$work/written" ] && grep -q 'Input/output error' "$work/complaint" ||
            fail "$*: its system call $read, a read, failed"
    done
}
for input in /dev/null $table; do
    file=$([ $input = $table ] && echo - || echo $table)
    torn 2 table "$file"
    torn 2 show "$file"
    torn 2 groups "$file" ann
    for command in verdict tree explain; do
        torn 2 $command "$file" ann read '' /
    done
done
input=/dev/null
torn 2 pack "$work/readable"
torn 2 log show "$work/log"
torn 2 log pack "$work/requests"
torn 2 policy $policy
echo 0101750000 >"$work/log"
torn 4 report $table "$work/log"
torn 4 report-sum examples/files/week1.report examples/files/week2.report
torn 2 rpc $policy '' /
torn 4 rpc $policy '' / "$work/headers"

# ---- each refusal in words: what is wrong here is what the words say
seen=
# NUMBER WORDS CALL..: refused with this number, in these words.
says() {
    seen="$seen $1"
    refused "${@:3}"
    sed -n '1s/^refused \([0-9]*\)\( at line [0-9]*\)\{0,1\}: /\1 /p' "$work/written" | cmp -s - <(echo "$1 $2") || fail "${*:3}: not refused $1: $2"
}
# The file `text` holds this, as printf says it.
text() { printf -- "$1" >"$work/text"; }
# The file `text` holds the example policy, edited.
edited() { sed "$1" $policy >"$work/text"; }

version_line=010176$(printf %016d 0)
head -c 32769 /dev/zero | tr '\0' '\n' >"$work/text"
says 1 'the table text is over 32,768 bytes' table "$work/text"
text '0\n'
says 2 'not a hex line: an even, nonzero count of digits 0-9a-f, then LF' table "$work/text"
text "$version_line"
says 2 'not a hex line: an even, nonzero count of digits 0-9a-f, then LF' table "$work/text"
[ "$(tail -n 1 "$work/written")" = 'the line has no LF at its end' ] || fail "table: the missing LF is not told"
text 'ff\n'
says 3 'unknown kind or code byte, or the frame is too short or too long' table "$work/text"
text '020167\n'
says 4 'order of kinds: one version line first, then groups, members, rules' table "$work/text"
text "$version_line\n0200\n"
says 5 'a limit passed, or an empty string that may not be empty' table "$work/text"
text "$version_line\n020107\n"
says 6 'a byte outside its set' table "$work/text"
text "$version_line\n04010101017501690001032e2e2e00\n"
says 7 'a wildcard misplaced, or an element named ...' table "$work/text"
text "$version_line\n020167\n020167\n"
says 8 'group name, member in a group, rule id, or key in an element twice' table "$work/text"
text "$version_line\n0301670175\n"
says 9 'the group is not listed' table "$work/text"

says 20 "user or mode not as a table allows: a user's name has 1 to 64 bytes that print" verdict $table '' read '' /
says 21 'origin not as a table allows: it has at most 32 bytes that print' verdict $table ann read $'\t' /
says 22 "not a path, as text (/ or /NAME[KEY=VALUE]..) or as bytes, within the limits of a rule's" verdict $table ann read '' a

head -c 16385 /dev/zero | tr '\0' ' ' >"$work/text"
says 30 'the policy is over 16,384 bytes' policy "$work/text"
text '{'
says 31 'not one JSON value, in printable bytes, nested to depth 16 at most' policy "$work/text"
text '{"a":1,"a":1}'
says 32 'a member name twice in one object' policy "$work/text"
text '[]'
says 33 'not the schema of a policy' policy "$work/text"
edited 's/yard/y\\u0061rd/'
says 34 'a backslash in a string' policy "$work/text"
edited 's/"yard"/""/'
says 35 'a limit passed, or empty where that is not allowed' policy "$work/text"
edited 's/north/no*th/'
says 36 'an asterisk elsewhere than at one end of a pattern' policy "$work/text"
edited 's/"site"/"host"/'
says 37 'a barred or ill-spelt header key' policy "$work/text"
edited 's/readers/officers/'
says 38 'a rule name twice in a list' policy "$work/text"
says 40 'identity or path over 256 bytes, or a byte of it does not print' rpc $policy $'\t' /
text 'no colon\n'
says 41 'header lines ill-formed, over 8,192 bytes together, or a byte of a value does not print' rpc $policy '' / "$work/text"

# A byte of the record, which is the first 20 bytes of the first file of a rotation.
put() { printf "$2" | dd of="${rotation[0]}" bs=1 seek="$1" conv=notrunc status=none; }
begin table
step finalize && says 13 'no rotation is on' "${words[@]}"
step rpc '' / && says 16 'the record is of the other kind' "${words[@]}"
step start && answer "${words[@]}"
says 12 'a rotation is on already' "${words[@]}"
step finalize && says 14 'there is no candidate' "${words[@]}"
put 0 '\3'
step show && says 15 'not a record: its kind, its slot, a length, or a candidate while no rotation is on' "${words[@]}"
begin table
truncate -s -1 "${rotation[-1]}"
step start && says 11 'the store is shorter than 65,536 bytes' "${words[@]}"

# 23 cannot come from here, where there is room for every result; its words stand with the others.
grep -rqF '23 the result does not fit the buffer\n' crates/cli_refusal || fail 'refusal 23: other words'
seen="$seen 23"
# 50 and 51 are those of tests/season.sh, where they go to standard error.
seen="$seen 50 51"
numbers=$(sed -n 's/^#define BURGEE_REFUSED_[A-Z_]* \([0-9]*\)u.*/\1/p' include/burgee.h)
[ "$(printf '%s\n' $seen | sort -nu)" = "$(printf '%s\n' $numbers | sort -n)" ] || fail "refusals: not those of the header are tried"

# ---- an explanation: every rule that matches, and why it lost to the first; one for each step of the ranking, and two that do not match
burgee pack - >"$work/text" <<'END'
version [v] time 0000000000000001
group [g]
member [g] [u]
rule deny read user [u] id [d] origin [] /a
rule permit read user [u] id [c] origin [] /a[k=v]/b
rule deny read user [u] id [b] origin [] /a[k=*]/b
rule deny read user [u] id [f] origin [] /a[k=v]/b
rule deny read user [u] id [0] origin [] /a[k=w]/b
rule deny read group [g] id [a] origin [] /a[k=v]/b
rule permit write user [u] id [1] origin [] /a[k=v]/b
rule deny read user [u] id [e] origin [] /a[k=v]/b
END
answer_is explain "$work/text" u read '' '/a[k=v]/b' <<'END'
deny
rule 7
id e
1 decides: rule 7, deny, elements 2, definite keys 1, user, id e
2 lost at smaller id: rule 3, deny, elements 2, definite keys 1, user, id f
3 lost at deny over permit: rule 1, permit, elements 2, definite keys 1, user, id c
4 lost at user over group: rule 5, deny, elements 2, definite keys 1, group, id a
5 lost at definite keys: rule 2, deny, elements 2, definite keys 0, user, id b
6 lost at elements: rule 0, deny, elements 1, definite keys 0, user, id d
END
answer_is explain "$work/text" u write '' '/a[k=v]/b' <<'END'
permit
rule 6
id 1
1 decides: rule 6, permit, elements 2, definite keys 1, user, id 1
END

# ---- as many groups and as many rules as a table may have, each of them told
{
    echo 'version [v] time 0000000000000001'
    printf 'group [g%d]\n' {0..63}
    printf 'member [g%d] [u]\n' {0..63}
    printf 'rule permit read group [g63] id [%03d] origin [] /\n' {0..255}
} | burgee pack - >"$work/text"
answer_is groups "$work/text" u < <(
    echo 'groups 64'
    for group in {0..63}; do echo "group $group g$group"; done
)
answer_is explain "$work/text" u read '' / < <(
    printf 'permit\nrule 0\nid 000\n1 decides: rule 0, permit, elements 0, definite keys 0, group, id 000\n'
    for rule in {1..255}; do
        printf '%d lost at smaller id: rule %d, permit, elements 0, definite keys 0, group, id %03d\n' $((rule + 1)) "$rule" "$rule"
    done
)

# ---- a probe of a rotation answers as the command does on the text in force
probed() { # TEXT COMMAND WORD..
    step "$2" "${@:3}" && answer_is "${words[@]}" < <(burgee "$2" "$1" "${@:3}")
}
begin table
step start && answer "${words[@]}"
step upload $table && answer "${words[@]}"
for name in verdict tree; do
    probed $table $name stevie read '' /system
    probed $table $name ann write '' '/interfaces/interface[name=uplink]'
done
begin policy
step start && answer "${words[@]}"
step upload $policy && answer "${words[@]}"
probed $policy rpc '' /gnmi.gNMI/Get
probed $policy rpc '' /gnmi.gNMI/Get "$work/headers"

# ---- the record of a rotation, as `show` tells it
shown() {
    step show
    answer_is "${words[@]}"
}
begin table
printf 'kind table\nslot 0\nlive none\nrotation off\ncandidate none\n' >"$work/expected"
shown <"$work/expected"
for byte in 12 13 14 15; do # whether a rotation is on: 0 off, any other number on
    begin table
    put $byte '\2'
    shown < <(sed 's/rotation off/rotation on/' "$work/expected")
done
begin policy
step start && answer "${words[@]}"
step upload $policy && answer "${words[@]}"
step finalize && answer "${words[@]}"
length=$(wc -c <$policy)
shown < <(printf 'kind policy\nslot 0\nlive %d\nrotation off\ncandidate none\n' "$length")
step start && answer "${words[@]}"
step upload $policy && answer "${words[@]}"
shown < <(printf 'kind policy\nslot 0\nlive %d\nrotation on\ncandidate %d\n' "$length" "$length")
step finalize && answer "${words[@]}"
shown < <(printf 'kind policy\nslot 1\nlive %d\nrotation off\ncandidate none\n' "$length")

ended command_line
