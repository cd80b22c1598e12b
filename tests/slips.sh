#!/usr/bin/env bash
# A user whom an accepted table does not name is told on standard error, with the names that differ only in case. The answer on standard output and
# the exit status are the same as for any other user.
. "$(dirname "$0")/calls.bash"

# The words that name a rotation's files.
files=("$work/rotation")

# STATUS SAID WORD..: the call ends with that status, says that on standard error, and answers on standard output.
said() {
    local expected=$1 line=$2
    shift 2
    run "$expected" "$@"
    [ "$(cat "$work/complaint")" = "$line" ] && [ -s "$work/written" ] && ! grep -q '^burgee: ' "$work/written" || fail "$*: not said: $line"
}

# STATUS SAID TABLE USER: the same for each command that asks a table about a user.
asked() {
    local command
    for command in verdict tree explain; do
        said "$1" "$2" $command "$3" "$4" read '' /
    done
    said "$1" "$2" groups "$3" "$4"
}

# The same for the probes of the rotation.
probed() {
    local probe
    for probe in verdict tree; do
        said "$1" "$2" rotate $probe "${files[@]}" "$3" read '' /
    done
}

long=$(printf 'x%.0s' {1..64})
burgee pack - >"$work/table" <<END
version [v1] time 0000000000000001
group [eng]
group [both]
group [staff]
member [eng] [ann]
member [eng] [Dave]
member [eng] [Staff]
member [eng] [${long^^}]
member [both] [both]
member [both] [dAVE]
member [both] [Dave]
rule permit read user [carl] id [r0] origin [] /
rule permit read user [DAVE] id [r1] origin [] /a
rule permit read user [Dave] id [r2] origin [] /b
rule permit read group [eng] id [r3] origin [] /
END

for step in "new table" start "upload $work/table"; do
    read -ra words <<<"$step"
    [ "$step" = start ] && probed 0 '' zed # factory
    burgee rotate "${words[0]}" "${files[@]}" "${words[@]:1}" >/dev/null || status=1
done

no='burgee: the table names no user'
while read -r user rest; do
    line=${rest:+$no $user${rest#nobody}}
    asked 0 "$line" "$work/table" "$user"
    probed 0 "$line" "$user"
done <<END
ann
carl
both
DAVE
${long^^}
zed nobody
ENG nobody
ann@x nobody
eng nobody; a group has that name
staff nobody; a group has that name; it names Staff
Both nobody; it names both
CARL nobody; it names carl
dave nobody; it names Dave, dAVE, DAVE
$long nobody; it names ${long^^}
END

# a refused user, a refused table, a refused path
for user in '' "x$long" $'a\x01'; do
    asked 1 '' "$work/table" "$user"
    probed 1 '' "$user"
done
head -c -1 "$work/table" >"$work/refused"
asked 1 '' "$work/refused" zed
said 1 "$no Ann; it names ann" verdict "$work/table" Ann read '' no-path

# as many names as a table can have
{
    printf '%s\n' 'version [v1] time 0000000000000001' 'group [g]'
    awk 'BEGIN {
        for (i = 1; i <= 512 + 256; i++) {
            name = ""
            for (k = 0; k < 10; k++) {
                letter = substr("abcdefghij", k + 1, 1)
                name = name (int(i / 2 ^ k) % 2 ? toupper(letter) : letter)
            }
            if (i <= 512) print "member [g] [" name "]"
            else print "rule deny read user [" name "] id [" i "] origin [] /"
        }
    }'
} >"$work/many.text"
burgee pack - <"$work/many.text" >"$work/many"
names=$(sed -n 's/^member \[g\] \[\(.*\)\]$/\1/p; s/^rule deny read user \[\([^]]*\)\].*/\1/p' "$work/many.text" | paste -s -d , | sed 's/,/, /g')
asked 0 "$no abcdefghij; it names $names" "$work/many" abcdefghij

ended slips
