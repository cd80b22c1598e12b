#!/usr/bin/env bash
# bin/burgee: it runs the program that its sources say, whatever was built before, and gives its exit status. Tried in a folder of its own, where
# `rt` is a stand-in that makes a program at once: a script that writes the sources' one line, and then does as its first word says.
set -uo pipefail
cd "$(dirname "$0")/.."
work=$(mktemp -d)
trap 'chmod -R u+w "$work"; rm -rf "$work"' EXIT
here=$work/here
mkdir -p "$here/bin" "$here/tools" "$here/crates/cli/src" "$work/tools"
cp bin/burgee "$here/bin"
cp tools/build.sh "$here/tools"
printf 'below:\ncli: below\nother: below\n' >"$here/crates.txt"
echo one >"$here/crates/cli/src/main.rt"
echo kit >"$here/toolchain.txt"

cat >"$work/tools/rt" <<'RT'
#!/bin/sh
# Stands in for rt run -- version in crates/cli.
[ "$*" = 'run -- version' ] && [ "${PWD##*/}" = cli ] && cd ../.. || exit 2
cat >/dev/null # nothing is left of standard input, were it handed on
said=$(cat crates/*/src/*.rt toolchain.txt | tr '\n' ' ')
echo "$$" >>../builds
sleep "$(cat ../slow 2>/dev/null || echo 0)"
if [ -e ../broken ]; then
    echo 'rt: the library below did not build, so nothing above it was checked' >&2
    exit 1
fi
for crate in below cli; do
    echo "crate $crate: modules loaded=1 checked=0" >&2
    echo 'logic=proved functions=7 sum=0' >&2
done
echo 'a version'
mkdir -p crates/cli/out
{
    printf '#!/bin/sh\necho %s\ncase ${1:-} in\n' "$said"
    printf 'read) cat ;;\n'
    printf 'refused) exit 1 ;;\n'
    printf 'complained) exit 2 ;;\n'
    printf 'broken) exit 4 ;;\n'
    printf 'killed) kill -SEGV $$ ;;\n'
    printf 'failed) exit 101 ;;\n'
    printf 'esac\n'
} >crates/cli/out/cli
chmod +x crates/cli/out/cli
RT
chmod +x "$work/tools/rt"
export PATH="$work/tools:$PATH"

status=0
tried=0
burgee=$here/bin/burgee

# STATUS WRITTEN BUILDS WORD..: what burgee ends with and writes, and how many builds there have been then.
expect() {
    local expected=$1 written=$2 builds=$3 got said
    shift 3
    tried=$((tried + 1))
    said=$("$burgee" "$@" 2>"$work/complaint" </dev/null)
    got=$?
    local built=0
    [ ! -e "$work/builds" ] || built=$(wc -l <"$work/builds")
    if [ $got -ne "$expected" ] || [ "$said" != "$written" ] || [ "$built" -ne "$builds" ]; then
        echo "line ${BASH_LINENO[0]}: burgee $*: status $got, not $expected; \"$said\", not \"$written\"; $built builds, not $builds"
        cat "$work/complaint"
        status=1
    fi
}

complained_of() {
    grep -q "$1" "$work/complaint" || { echo "line ${BASH_LINENO[0]}: no complaint \"$1\" in:"; cat "$work/complaint"; status=1; }
}
# BUILDS: waits until so many have begun.
begun() {
    local i
    for i in {1..100}; do
        [ "$(wc -l <"$work/builds")" -lt "$1" ] || return
        sleep 0.1
    done
}
silent() {
    [ ! -s "$work/complaint" ] || { echo "line ${BASH_LINENO[0]}: a complaint:"; cat "$work/complaint"; status=1; }
}

# A first build says what it does, and how far it is; then it is silent.
expect 0 'one kit' 1
complained_of 'not built yet: of its 2 crates'
complained_of '^burgee: proved crate 2: cli, functions: 7$'
complained_of '^burgee: it is built$'
expect 0 'one kit' 1
silent

# A changed source, also one that looks older than the build; one that is added, removed, renamed; another toolchain.
echo two >"$here/crates/cli/src/main.rt"
expect 0 'two kit' 2
complained_of 'its sources have changed'
expect 0 'two kit' 2
silent
echo three >"$here/crates/cli/src/main.rt"
touch -d '2001-01-01' "$here/crates/cli/src/main.rt" "$here/crates/cli/src" "$here/crates/cli" "$here/crates"
expect 0 'three kit' 3
echo three >"$here/crates/cli/src/more.rt"
expect 0 'three three kit' 4
mv "$here/crates/cli/src/more.rt" "$here/crates/cli/src/a.rt"
expect 0 'three three kit' 5
rm "$here/crates/cli/src/a.rt"
expect 0 'three kit' 6
echo another >"$here/toolchain.txt"
expect 0 'three another' 7
printf 'cli:\n' >"$here/crates.txt"
expect 0 'three another' 8
# A folder that takes another's place, all of it older than the build.
mkdir -p "$work/release/cli/src"
echo five >"$work/release/cli/src/main.rt"
find "$work/release" -exec touch -d '2001-01-01' {} +
mv "$here/crates" "$work/old" && mv "$work/release" "$here/crates"
expect 0 'five another' 9

# The same again: found out by its contents, without a build; and then again by its times.
touch "$here/crates/cli/src/main.rt"
expect 0 'five another' 9
silent
expect 0 'five another' 9
# What somebody else builds is not taken for it.
echo 'echo wrong' >"$here/target/bin/cli"
expect 0 'five another' 9
# A program that was removed.
rm "$here/target/burgee/program"
expect 0 'five another' 10
# What tools/build.sh built of the sources as they are is taken; what it built of others is not, nor a build that something is done to.
rm "$here/target/burgee/program"
expect 0 'five another' 10
complained_of '^burgee: it is built$'
echo 'between' >"$here/crates/cli/src/main.rt"
sh "$here/tools/build.sh" cli 2>"$work/complaint"
expect 0 'between another' 11
expect 0 'between another' 11
echo five >"$here/crates/cli/src/main.rt"
expect 0 'five another' 12

# A build that fails: told, each time, and what was built before is not run.
touch "$work/broken"
echo six >"$here/crates/cli/src/main.rt"
expect 3 '' 13
complained_of 'did not build'
complained_of 'it cannot be built'
expect 3 '' 14
# Back to what was built before: it is built again, and is right.
rm "$work/broken"
echo five >"$here/crates/cli/src/main.rt"
expect 0 'five another' 15
# There is no rt.
echo seven >"$here/crates/cli/src/main.rt"
mkdir "$work/few"
for name in sh find sha256sum sort cat readlink dirname touch rm mv wc; do ln -s "$(command -v $name)" "$work/few"; done
PATH=$work/few expect 3 '' 15
complained_of 'rt, the Rattle toolchain, is not in the PATH'

# Two calls at once: one builds, the other waits for it.
echo 1 >"$work/slow"
for i in 1 2 3; do "$burgee" >"$work/said.$i" 2>/dev/null & done
wait
[ "$(cat "$work"/said.*)" = "$(printf 'seven another\n%.0s' 1 2 3)" ] || { echo 'calls at once: not all are right'; status=1; }
expect 0 'seven another' 16
# A call that is cut off: the next one waits for what is left of its build, and takes that.
echo cut >"$here/crates/cli/src/main.rt"
"$burgee" >"$work/said.1" 2>&1 &
begun 17
kill $!
expect 0 'cut another' 17
# A source that changes while it is built: the next call builds again.
echo before >"$here/crates/cli/src/main.rt"
"$burgee" >"$work/said.1" 2>&1 &
begun 18
echo during >"$here/crates/cli/src/main.rt"
wait
expect 0 'during another' 19
rm "$work/slow"
# A find that does not know -files0-from: by the sum of the sources, each time.
mkdir "$work/older"
printf '#!/bin/sh\ncase $* in *files0-from*) exit 1 ;; esac\nexec %s "$@"\n' "$(command -v find)" >"$work/older/find"
chmod +x "$work/older/find"
PATH=$work/older:$PATH expect 0 'during another' 19
silent
echo older >"$here/crates/cli/src/main.rt"
PATH=$work/older:$PATH expect 0 'older another' 20

# A build leaves standard input alone.
echo eight >"$here/crates/cli/src/main.rt"
[ "$(echo input | "$burgee" read 2>/dev/null)" = "$(printf 'eight another\ninput')" ] || { echo 'a build takes standard input'; status=1; }

# By a link, also one in another folder, a relative one, and a link to a link; by the folder's link; by a relative path.
mkdir "$work/links"
ln -s "$here/bin/burgee" "$work/links/whole"
ln -s ../here/bin/burgee "$work/links/relative"
ln -s relative "$work/links/burgee"
ln -s "$here/bin" "$work/folder"
for link in links/whole links/relative links/burgee folder/burgee; do
    burgee=$work/$link expect 0 'eight another' 21
    silent
done
[ "$(cd "$work/links" && PATH=$work/links:$PATH burgee)" = 'eight another' ] || { echo 'not by a link in the PATH'; status=1; }
[ "$(cd "$here/bin" && sh burgee)" = 'eight another' ] || { echo 'not from its own folder'; status=1; }

# The exit status is the program's; that of a program that does not end well is 3.
expect 1 'eight another' 21 refused
expect 2 'eight another' 21 complained
expect 3 'eight another' 21 broken
complained_of 'did not end as it should'
expect 3 'eight another' 21 killed
expect 3 'eight another' 21 failed

# A folder that cannot be written, and is built: it works, though chmod changes the status of every file; and once its sources have changed it is told.
chmod -R a-w "$here"
if [ "$(id -u)" -eq 0 ]; then
    # Nothing is closed to root: as nobody, then.
    chmod a+rx "$work" "$here" "$work/tools"
    nobody=(setpriv --reuid=65534 --regid=65534 --clear-groups --no-new-privs)
else
    nobody=()
fi
[ "$("${nobody[@]}" "$here/bin/burgee" 2>&1)" = 'eight another' ] || { echo 'not in a folder that cannot be written'; status=1; }
chmod u+w "$here/crates/cli/src/main.rt"
echo nine >"$here/crates/cli/src/main.rt"
said=$("${nobody[@]}" "$here/bin/burgee" 2>&1)
[ $? -eq 3 ] && [[ $said == *'cannot be written'* ]] || { echo "changed, in a folder that cannot be written: $said"; status=1; }

[ $status -eq 0 ] && echo "program: $tried calls, ok"
exit $status
