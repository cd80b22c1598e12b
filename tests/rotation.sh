#!/usr/bin/env bash
# Rotations in files, and tables that are packed: what is refused, or complained of, leaves the file as it was, and nothing beside it; where the new file
# may stand, and where not; its mode.
. "$(dirname "$0")/calls.bash"

file=$work/rotation/file
mkdir "$work/rotation"
kept=$work/kept

# The file is as it was kept, and alone in its folder.
keep() {
    cp "$file" "$kept"
}
same() {
    cmp -s "$file" "$kept" || fail "$*: the file has changed"
    alone "$@"
}
alone() {
    [ "$(ls -A "$work/rotation")" = file ] || fail "$*: a file beside it"
}

# ---- the steps
complaint rotate start "$file"
complaint rotate new "$work/none/file" table
[ -z "$(ls -A "$work/rotation")" ] || fail "rotate: a file is made"
answer rotate new "$file" table
alone rotate new
[ "$(wc -c <"$file")" -eq 65556 ] || fail "rotate new: another length"
answer rotate start "$file"
answer rotate upload "$file" $table
keep
for step in start "upload $policy" "rpc ann /"; do
    read -ra words <<<"$step"
    refused rotate "${words[0]}" "$file" "${words[@]:1}"
    same "rotate $step"
done
for step in show "verdict ann read x /" "tree ann read x /"; do
    read -ra words <<<"$step"
    answer rotate "${words[0]}" "$file" "${words[@]:1}"
    same "rotate $step"
done
for kind in table policy; do
    complaint rotate new "$file" $kind
    same rotate new
done
complaint rotate upload "$file" "$work/none"
same rotate upload
for step in "start" "finalize" "close" "show" "upload $table" "new table" "verdict ann read x /" "tree ann read x /" "rpc ann /"; do
    read -ra words <<<"$step"
    input=$file # no step takes standard input for the file
    misused rotate "${words[0]}" - "${words[@]:1}"
    input=/dev/null
    same "rotate ${words[0]} -"
    misused rotate "${words[0]}" "$file" "${words[@]:1}" more more
    same "rotate $step, more words"
    misused rotate "${words[0]}"
done
[ ! -e - ] || fail "rotate: a file named -"
answer rotate finalize "$file"
refused rotate close "$file"
alone rotate finalize

# ---- what stands behind record and store is kept
printf 'left alone' >>"$file"
answer rotate start "$file"
answer rotate upload "$file" $table
[ "$(tail -c +65557 "$file")" = 'left alone' ] || fail "rotate: what stands behind the store is lost"

# ---- a file that is too short
keep
for count in 0 1 19; do
    head -c $count "$kept" >"$file"
    for step in show start "upload $table" "verdict ann read x /"; do
        read -ra words <<<"$step"
        complaint rotate "${words[0]}" "$file" "${words[@]:1}"
        [ "$(wc -c <"$file")" -eq $count ] || fail "rotate $step: a file of $count bytes has changed"
    done
done
for count in 20 21 1044 65555; do
    head -c $count "$kept" >"$file"
    for step in show start finalize close "upload $table" "verdict ann read x /" "tree ann read x /" "rpc ann /"; do
        read -ra words <<<"$step"
        refused_as '11: the store is shorter than 65,536 bytes' rotate "${words[0]}" "$file" "${words[@]:1}"
        [ "$(wc -c <"$file")" -eq $count ] || fail "rotate $step: a file of $count bytes has changed"
    done
done
cp "$kept" "$file"

# ---- where a file may stand
answer rotate show "$file"
top=$PWD
cd "$work/rotation" || exit
answer rotate close file
alone "a name without a folder"
cd "$top" || exit
keep
long=$(printf %0256d 0)
burgee show $table >"$work/readable"
# A device, a pipe and a link to standard output of our own: a wrong program may replace or remove what it is given, and root may do that in /dev.
special=$work/special
mkdir "$special"
mkfifo "$special/pipe"
mknod "$special/device" c 1 3 2>"$work/complaint" # root alone can make one
ln -s /proc/self/fd/1 "$special/output"
ls -l "$special" >"$work/specials"
for name in "$work/rotation/" "$work/rotation" "$work/none/file" "$file/none" "$work/rotation/$long" "$work/rotation/${long:0:250}" "$(printf %05000d 0)" '' - \
    "$special"/*; do
    complaint rotate new "$name" table
    complaint pack "$work/readable" "$name"
    same "a file named $name"
done
for name in "$special"/*; do # bin/burgee looks at them too
    target/burgee/program pack "$work/readable" "$name" >"$work/written" 2>"$work/complaint"
    [ $? -eq 2 ] || fail "pack $name: no complaint by the program"
done
for step in start finalize close "upload $table"; do # a pipe would be waited for
    read -ra words <<<"$step"
    timeout 10 bin/burgee rotate "${words[0]}" "$special/pipe" "${words[@]:1}" >"$work/written" 2>"$work/complaint"
    [ $? -eq 2 ] && grep -q 'not a regular file' "$work/complaint" || fail "rotate ${words[0]} of a pipe: no complaint"
done
ls -l "$special" | cmp -s - "$work/specials" || fail "a pipe, a device or a link is replaced"
ln -s rotation/file "$work/link"
ln -s nowhere "$work/loose"
answer rotate show "$work/link"
complaint rotate start "$work/link"
for name in "$work/link" "$work/loose"; do
    complaint rotate new "$name" table
    complaint pack "$work/readable" "$name"
    [ -L "$name" ] || fail "$name: a link is replaced"
done
[ ! -e "$work/nowhere" ] || fail "a link is followed"
same "links"

# ---- what a step leaves beside the file where it is killed, here by a limit on the size of files, is in no other's way
for count in 1 2; do
    bash -c 'ulimit -c 0 && ulimit -f 1 && target/burgee/program rotate start "$0"; exit' "$file" >"$work/written" 2>"$work/complaint"
    [ "$(find "$work/rotation" -name 'file.unfinished-????????' | wc -l)" -eq $count ] || fail "rotate start, killed $count times: not as many files are left"
done
answer rotate start "$file"
answer rotate close "$file"
rm "$work"/rotation/file.unfinished-*
same "killed steps"

# ---- a table that is packed: written where accepted only, and whole
answer pack "$work/readable" "$work/packed"
[ "$(cat "$work/written")" = "bytes $(wc -c <$table)" ] || fail "pack: another count"
cmp -s "$work/packed" $table || fail "pack: another table"
sed 's/^group/groups/' "$work/readable" >"$work/wrong"
refused_aside pack "$work/wrong" "$work/packed"
cmp -s "$work/packed" $table || fail "pack: a refusal has changed the table"
refused_aside pack "$work/wrong" "$work/another"
[ ! -e "$work/another" ] || fail "pack: a refusal makes a table"
refused_aside pack "$work/wrong"
refused_aside show $policy
sed 's/2026-11/2026-12/' "$work/readable" >"$work/next"
answer pack "$work/next" "$work/packed"
burgee show "$work/packed" | cmp -s - "$work/next" || fail "pack: the table is not replaced"
misused pack "$work/readable" "$work/packed" more
ls "$work" "$special" | grep -q unfinished && fail "pack: a file is left"

# ---- the mode: that of the file that is replaced; of a new one, what the umask leaves
for mode in 600 640 664 644; do
    chmod $mode "$file" "$work/packed"
    for step in start close; do
        answer rotate $step "$file"
        [ "$(stat -c %a "$file")" = $mode ] || fail "rotate $step: not the mode $mode"
    done
    answer pack "$work/readable" "$work/packed"
    [ "$(stat -c %a "$work/packed")" = $mode ] || fail "pack: not the mode $mode"
done
mask=$(umask)
for pair in "077 600" "027 640" "022 644"; do
    umask "${pair% *}"
    rm -f "$work/packed" "$file"
    answer pack "$work/readable" "$work/packed"
    answer rotate new "$file" table
    [ "$(stat -c %a "$work/packed" "$file" | sort -u)" = "${pair#* }" ] || fail "a new file under umask ${pair% *}: another mode"
done
umask "$mask"
keep
if [ "$(id -u)" -eq 0 ]; then
    chown 1 "$file" "$work/packed"
    complaint rotate start "$file"
    complaint pack "$work/readable" "$work/packed"
else
    chmod 444 "$file" "$work/packed"
    complaint rotate start "$file"
    complaint pack "$work/readable" "$work/packed"
fi
same "a file that may not be replaced"

ended rotation
