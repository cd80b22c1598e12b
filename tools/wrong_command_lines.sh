#!/usr/bin/env bash
# wrong_command_lines.sh [PATTERN]: wrong command lines, each of which a test of tests/ has to see; those alone whose line in the list matches, if one is given.
# The program is compiled of a wrong source without a proof (tools/unproved.py), so that what the prover refuses is tried on the tests too. Each fault has a copy of the repository, in which `rt` is a
# stand-in; where root runs this, wrong programs run as nobody, since they may remove what they are given. Prints what the test said of each. Half a minute of processor time for each, and that of its test.
set -uo pipefail
cd "$(dirname "$0")/.." || exit
export STOP_AT_FIRST=1 # tests/calls.bash
only=${1-}
work=$(mktemp -d)
trap 'rm -rf "$work"' EXIT
chmod 755 "$work"
mkdir "$work/sound"
git ls-files -z --cached --others --exclude-standard -- . ':!target' | tar -c --null --files-from=- | tar -x -C "$work/sound"

# Lines `TEST FILE WHAT: SED SCRIPT`; files stand in crates/, but for bin/burgee and tools/build.sh. `in NAME SCRIPT` is a script for the body of that function.
faults() {
    sed 's/: in \([a-z_]*\) \(.*\)/: \/^\\(pub \\)*fn \1[(<]\/,\/^}\/\2/' <<'END'
command_line cli_console/src/input.rt a word over 4,096 bytes taken as empty: in word s/TooLong) => buf.len()/TooLong) => 0/
command_line cli_console/src/input.rt a read that fails midway taken as the whole file: in fill s/is_good: false/is_good: 0 < count/
command_line cli_console/src/input.rt a first read that fails taken as an empty file: in fill s/is_good: false/is_good: count == 0/
rotation cli_saving/src/lib.rt rotate new deletes the file that is there: in complain_of_taken s/^    cli/    let mut name = [0u8; ROOM];\n    let n = cli_console::input::word(console, i, \&mut name);\n    if let Ok(path) = source::path(\&name[..n]) {\n        let _ = fs::remove_file(\&console.rt, path);\n    }\n    cli/
rotation cli_rotation/src/steps.rt rotate new replaces the file that is there: in make s/begin(console, 3, false)/begin(console, 3, true)/
stops cli_saving/src/lib.rt rotate new replaces a file that appears meanwhile: in is_free s/s.may_replace/true/
stops cli_saving/src/lib.rt saved though writing failed, and nothing is told: in add s/match s.file.write_all(bytes)/let _ = s.file.write_all(bytes);\n    match Ok(())/
stops cli_saving/src/lib.rt saved though writing failed, which is told: in add s/^            None/            Some(s)/
stops cli_saving/src/lib.rt saved though the rest could not be copied: in add_rest s/^            None/            Some(s)/
stops cli_saving/src/lib.rt a read of the rest that fails taken as its end: in copy_some s/from.read(\&mut buf)?/from.read(\&mut buf).unwrap_or(0)/
stops cli_saving/src/lib.rt saved though flushing failed: in close s/file.sync_all()/Ok(())/
stops cli_saving/src/lib.rt an unfinished file is left: in abandon s/let _ = remove_beside(.*);//
stops cli_rotation/src/steps.rt the record is shown though it could not be saved: in keep s/finish(console, with_rest)/finish(console, with_rest) | true/
rotation cli_rotation/src/steps.rt what stands behind the store is lost: in keep s/cli_saving::add_rest(console, with_store, from)/with_store/
rotation cli_saving/src/lib.rt a symbolic link is replaced: in look s/Place::Link/Place::Taken/
stops cli_saving/src/lib.rt the folder is not flushed: in sync_folder s/folder.sync_all()/Ok(())/
rotation cli_saving/src/lib.rt a pipe is replaced: in flush_named s/file.sync_all()/Ok(())/
rotation cli_saving/src/lib.rt a file that may not be written is replaced: in begin s/!flush_old(console, i)/false/
rotation cli_saving/src/lib.rt the new file has one name always: in chance s/wide(b\[0\]).*/0/
command_line cli_probe/src/lib.rt rotate rpc judges though its headers cannot be read: in policy s/if got.is_good/if true/
command_line cli/src/main.rt rpc judges though its headers cannot be read: in rpc s/ & also.is_good//
command_line cli/src/main.rt rpc judges though its policy cannot be read: in rpc s/got.is_good & //
command_line cli_rotation/src/steps.rt rotate upload takes a text that cannot be read: in upload s/if got.is_good/if true/
rotation cli_record/src/lib.rt rotate show of a short store: in tell s/r.check(n)/r.check(limits::STORE_LENGTH)/
rotation cli_rotation/src/steps.rt a file that is shorter than a record: in open s/got.count != cli_record::LENGTH/false/
command_line cli_record/src/lines.rt rotating 2 shown as off: in add_rotation s/n == 0/n != 1/
command_line cli_record/src/lines.rt rotating 256 shown as off: in add_rotation s/n == 0/n % 256 == 0/
command_line cli_record/src/lib.rt a number of the record read by its low bytes alone: in word s/ + d as u32 \* 16777216//
command_line cli_console/src/input.rt write judged as read: in mode s/2 => 2/2 => 1/
command_line cli/src/main.rt the origin left out: in verdict s/input::word(console, 5/input::word(console, 9/
command_line cli_probe/src/lib.rt the origin of a probe left out: in table s/input::word(console, 6/input::word(console, 9/
command_line cli_probe/src/lib.rt a probe of the tree is one of the path: in table s/            is_tree,/            false,/
lines cli_policy/src/fault.rt no line with refusal 38: in line s/38 < number/37 < number/
lines cli_console/src/lines.rt the line before the fault: in number_at s/p.min(last)/p.min(last).saturating_sub(1)/
command_line cli_console/src/refused.rt a line without LF is not told: in quote_line s/crate::lines::is_open(text, line)/false/
lines cli_console/src/quote.rt bytes that do not print are printed: in add_byte s/text::byte::is_print(b)/true/
readable cli/src/main.rt a long readable text is cut: s/TEXT_ROOM: usize = 131073/TEXT_ROOM: usize = 40000/
command_line cli/src/main.rt a long table is cut: s/TEXT_ROOM: usize = 131073/TEXT_ROOM: usize = 32768/
rotation cli_readable/src/lib.rt pack saves nothing: in pack_table s/words == 4/false/
log cli/src/main.rt log pack shows: in log s/Direction::Pack, 3/Direction::Show, 3/
log cli_readable/src/logs.rt a log of 1,000,000 lines is refused: in print_lines s/from < text.len()) \&/from <= text.len()) \&/
log cli_readable/src/logs.rt one line too many is converted: in print_lines s/MAX_LOG_LINES + 1 - number/MAX_LOG_LINES + 2 - number/
log cli_readable/src/logs.rt bytes after the last LF are passed over: in convert s/if from < to/if false/
log cli_readable/src/logs.rt a line is numbered within its part: in convert s/\[..from\], number)/[..from], 1)/
log cli_readable/src/logs.rt a line that is too long is kept: in convert s/longest(direction) <= to - from/false/
log cli_readable/src/logs.rt a line that is too long is quoted: in quote s/if longest(direction) <= .* {/if false {/
log cli_readable/src/logs.rt a refused line of a log is told as one of readable text: in refuse s/match direction/match Direction::Pack/
log cli_readable/src/logs.rt one line too many is told as a bad one: in refuse s/limits::MAX_LOG_LINES < number/false/
log cli_parts/src/lib.rt an unfinished line is lost: in more s/keep(buf, from, to)/keep(buf, to, to)/
log cli_parts/src/lib.rt an unfinished line is used before it ends: in whole_length s/^    for n in/    return text.len();\n    for n in/
command_line cli_answers/src/rows.rt group 63 not listed: in add_groups s/0\.\.n/0..n.min(63)/
command_line cli_explained/src/lib.rt two rules explained at most: in add_ranking s/0\.\.m/0..m.min(2)/
command_line cli_explained/src/lib.rt 255 rules explained at most: in add_ranking s/0\.\.m/0..m.min(255)/
command_line cli_explained/src/lib.rt each rule compared with itself: in add_ranking s/order\[0\]/order[i]/
command_line cli_explained/src/lib.rt reasons exchanged, elements and keys: in step_name {s/Step::Elements/Step::Swap/; s/Step::Keys/Step::Elements/; s/Step::Swap/Step::Keys/}
command_line cli_explained/src/lib.rt reasons exchanged, subject and action: in step_name {s/Step::Subject/Step::Swap/; s/Step::Action/Step::Subject/; s/Step::Swap/Step::Action/}
command_line cli_explained/src/lib.rt reasons exchanged, action and id: in step_name {s/Step::Action/Step::Swap/; s/Step::Id/Step::Action/; s/Step::Swap/Step::Id/}
usage cli_help/src/lib.rt exit statuses 0 and 1 exchanged in help: in all s/0 for an answer, 1 for/1 for an answer, 0 for/
usage cli_help/src/lib.rt exit statuses 2 and 3 exchanged in help: in all {s/, 2 for/, 3 for/; s/, 3 where/, 2 where/}
usage cli_show/src/marks.rt a refusal is marked as a complaint: in end s/from(1)/from(2)/
usage cli_show/src/marks.rt a complaint is marked as a refusal: in end s/from(2)/from(1)/
usage cli_show/src/marks.rt an answer is marked as a complaint: in end s/ExitCode::SUCCESS/ExitCode::from(2)/
usage cli_show/src/marks.rt a refusal after a complaint ends with 1: in mark s/console.outcome.max(outcome)/outcome/
usage cli_console/src/refused.rt a refusal is not marked: in to s/cli_show::marks::refusal(console);//
usage cli_show/src/failure.rt a file that cannot be read is not marked: in tell s/marks::complaint(console);//
usage cli_readable/src/lib.rt show and pack tell refusals on standard output: in tell s/Stream::Error/Stream::Output/
rotation cli_rotation/src/steps.rt a rotation in standard input: in run s/cli_console::input::is_standard(console, 3)/false/
rotation cli_readable/src/lib.rt a table saved as a file named -: in save s/cli_console::input::is_standard(console, i)/false/
command_line cli_rotation/src/steps.rt start, finalize, close and show take more words: in takes s/words == 4/3 < words/
command_line cli_rotation/src/steps.rt upload and new take more words: in takes s/words == 5/4 < words/
command_line cli_rotation/src/steps.rt probes of a table take more words: in takes s/words == 8/7 < words/
command_line cli_rotation/src/steps.rt rotate rpc takes more words: in takes s/words == 6 || words == 7/5 < words/
command_line cli_rotation/src/steps.rt start, finalize, close and show take fewer words: in takes s/words == 4/words < 5/
command_line cli_rotation/src/steps.rt probes of a table take fewer words: in takes s/words == 8/(words == 7) | (words == 8)/
command_line cli/src/main.rt table, show and policy take more words: in takes s/=> words == 3/=> 2 < words/
command_line cli/src/main.rt pack takes more words: in takes s/(words == 3) | (words == 4)/2 < words/
command_line cli/src/main.rt groups and path take more words: in takes s/=> words == 4/=> 3 < words/
command_line cli/src/main.rt verdict, tree and explain take more words: in takes s/words == 7/6 < words/
command_line cli/src/main.rt rpc takes more words: in takes s/(words == 5) | (words == 6)/4 < words/
usage cli_console/src/source.rt a file is read for standard input that is closed: in open_named s/file.as_raw_fd() == 0/false/
usage cli/src/main.rt version takes more words: in takes s/words == 2/1 < words/
usage cli/src/main.rt help takes more words: in takes s/_ => words < 4/_ => true/
usage cli/src/main.rt standard input read twice: in rpc s/words == 6/words == 9/
slips cli_names/src/lib.rt the line on a user goes to standard output: in tell s/Stream::Error/Stream::Output/
slips cli_table/src/tables.rt groups says nothing of a user who is not named: in groups s/cli_names::tell(console, text, user);//
slips cli_table/src/tables.rt verdict says nothing of a user who is not named: in verdict s/cli_names::tell(console, text, user);//
slips cli_table/src/tables.rt tree says nothing of a user who is not named: in tree s/cli_names::tell(console, text, user);//
slips cli_table/src/explanation.rt explain says nothing of a user who is not named: in all s/cli_names::tell(console, text, user);//
slips cli_probe/src/lib.rt the probes say nothing of a user who is not named: in answer_table s/cli_names::tell(console, text, user);//
reports cli_season/src/sums.rt the last report is left out: in run s/2\.\.words/2..words - 1/
reports cli_season/src/sums.rt a report that cannot be read is passed over: in add {/is_good/,/}/s/return false/return true/}
reports cli_season/src/sums.rt a report that is refused is passed over: in add {/quote(/,$s/return false/return true/}
reports cli_season/src/sums.rt a longer text is cut to the longest report: s/TEXT_ROOM: usize = MAX_REPORT + 1/TEXT_ROOM: usize = MAX_REPORT/
reports cli_season/src/sums.rt refusals on standard output: in refuse s/Stream::Error/Stream::Output/
reports cli_season/src/sums.rt a refused report is not marked: in refuse s/cli_show::marks::refusal(console);//
reports cli_season/src/sums.rt the line of a refused report is not shown: in add s/quote(.*);//
reports cli_season/src/sums.rt a missing line is shown: in quote s/limits::REPORT_LINES < line/true/
reports cli_season/src/sums.rt a missing LF is not told: in quote s/^            is_all,/            false,/
reports cli_season/src/sums.rt standard input read twice: in is_read_once s/is_named && is_standard/false/
reports cli_season/src/refusals.rt reasons exchanged: in reason {s/BadReport::LineCount/BadReport::Swap/; s/BadReport::TooLarge/BadReport::LineCount/; s/BadReport::Swap/BadReport::TooLarge/}
reports cli/src/main.rt report-sum without a report: in takes s/2 < words/1 < words/
season cli/src/main.rt season prints the report: in on_log s/cli_season::season(console, table, 3)/cli_report::report(console, table, 3)/
season cli/src/main.rt report prints the page: in on_log s/cli_report::report(console, table, 3)/cli_season::season(console, table, 3)/
season cli/src/main.rt standard input read twice for a report: in report s/input::is_standard(console, 2) & input::is_standard(console, 3)/false/
season cli/src/main.rt report and season take more words: in takes s/Season => words == 4/Season => 3 < words/
season cli/src/main.rt a table that cannot be read is counted on: in report s/if got.is_good/if true/
season cli_report/src/lib.rt a report though the log is refused: in report s/if let Some(tally) = \(count(.*)\) {/let tally = \1.unwrap_or(Tally::new());\n    if true {/
season cli_season/src/lib.rt a page though the log is refused: in season s/if let Some(tally) = \(cli_report::count(.*)\) {/let tally = \1.unwrap_or(Tally::new());\n    if true {/
season cli_season/src/lib.rt no page is printed: in page s/cli_show::word(.*);//
season cli_season/src/making.rt rules that never decided are left out: in add_never s/cli_season_rules::add_never(.*);//
season cli_report/src/lib.rt a log that cannot be read taken as one that ends: in count_file s/!got.is_good/false/
season cli_report/src/lib.rt a refused log on standard output: in refuse s/Stream::Error, number/Stream::Output, number/
season cli_report/src/lib.rt a refused table on standard output: in refuse_table s/Stream::Error, number/Stream::Output, number/
season cli_report/src/lib.rt the line of a refused log is not shown: in refuse s/if before < fault.line/if false/
season cli_report/src/lib.rt another line of a refused log is shown: in refuse s/line - before/line/
season cli_report/src/lib.rt a missing LF of a log is not told: in refuse s/line - before, true/line - before, false/
season cli_report/src/lib.rt the lines of each part are numbered anew: in count_file s/let before = tally.lines;/let before = tally.lines; tally.lines = 0;/
season cli_report/src/lib.rt the first part alone is counted: in count_file s/if to < part.len() {/if to <= part.len() {/
season cli_report/src/lib.rt an unfinished line is counted: in lines_end s/input::within(n, part)/to/
season cli_parts/src/lib.rt an unfinished line of a report is lost: in more s/keep(buf, from, to)/keep(buf, to, to)/
season cli_report/src/progress.rt told where standard error is no terminal: in begin s/!console.rt.stderr().is_terminal()/false/
season cli_report/src/progress.rt not told how far it is: in begin s/!console.rt.stderr().is_terminal()/true/
season cli_report/src/progress.rt told how far it is in the first second: in begin s/seconds(console) + 2/seconds(console)/
season cli_report/src/progress.rt told how far it is on standard output: in tell s/Stream::Error/Stream::Output/
program bin/burgee a changed source is not noticed: s/ \[ -z "\$later" \] && / /
program bin/burgee a source that looks old is not noticed: s/-cnewer/-newer/
program bin/burgee an added or removed source is not noticed: s/sources -print0/sources -type f -print0/
program bin/burgee another toolchain is not noticed: s/find crates crates.txt toolchain.txt/find crates crates.txt/
program bin/burgee other crates are not noticed: s/find crates crates.txt toolchain.txt/find crates toolchain.txt/
program bin/burgee a renamed source is not noticed: s/| LC_ALL=C sort |/| cut -c 1-64 | LC_ALL=C sort |/
program bin/burgee sources that are only touched are built again: s/= "\$1" \]$/= "" ]/
program bin/burgee a symbolic link is not followed: s/while \[ -L "\$self" \]/while false/
program bin/burgee a link to a link is not followed: s/while \[ -L "\$self" \]; do/for one in 1; do/
program bin/burgee a relative link is taken from where one stands: s/self=\$(dirname "\$self")\/\$link/self=$link/
program bin/burgee a refusal ends with 0: s/^0 | 1 | 2) exit \$ended/0 | 1) exit 0 ;;\n2) exit 2/
program bin/burgee a complaint ends with 0: s/^0 | 1 | 2) exit \$ended/0 | 2) exit 0 ;;\n1) exit 1/
program bin/burgee a complaint ends with 1: s/^0 | 1 | 2) exit \$ended/0) exit 0 ;;\n1 | 2) exit 1/
program bin/burgee a program that does not come to its end: s/^exit 3$/exit 0/
program bin/burgee a program that is killed: s/^0 | 1 | 2) exit \$ended/0 | 1 | 2) exit $ended ;;\n1??) exit 0/
program bin/burgee all exit statuses ignored: s/^    ended=.*/    ended=0/
program bin/burgee what was built before runs though a build failed: s/\[ "\$status" != 0 \]/false/
program bin/burgee a program that others built is run: s/"\$own\/program" "\$@"/"$root\/target\/bin\/cli" "$@"/
program tools/build.sh a build takes standard input: s/ <\/dev\/null//
program bin/burgee two build at once: s/^\( *\)flock 7/\1:/
program bin/burgee an old sum stays while another program is built: s/^    rm -f "\$own\/sum"//
program bin/burgee a source that changes during a build is not noticed: s/^    \[ ! -e "\$own\/sources/    list\n&/
program bin/burgee a find that fails is taken for no change: s/^later=\(.*\) &&$/later=\1/
rotation bin/burgee another user's file is replaced: s/\[ -O "\$3" \]/true/
rotation bin/burgee a pipe is waited for: s/\[ -f "\$3" \]/true/
usage bin/burgee a pipe that nobody reads is told as a fault: s/\[ \$ended -eq 141 \] ||//
rotation bin/burgee the mode of a file is lost: s/&& umask .*$//
END
    sed -n 's/^ *b*"*\([0-4][0-9]\) .*\\n.*/command_line cli_refusal\/s*\/* another text for \1: s|^\\( *b*"*\\)\1 |\\1\1 not |/p' crates/cli_refusal/src/lib.rt
    sed -n 's/^ *b*"*\(5[0-9]\) .*\\n.*/log cli_refusal\/s*\/* another text for \1: s|^\\( *b*"*\\)\1 |\\1\1 not |/p' crates/cli_refusal/src/lib.rt
}

# FOLDER: compiles the copy there, as `program` beside it.
compile() {
    (cd "$1/here" && TMPDIR=$1/tmp python3 tools/unproved.py cli "$1/program") >"$1/compiled" 2>&1 && [ -x "$1/program" ]
}

# FOLDER TEST: runs the test in the copy there, whose bin/burgee takes `program` for what rt builds.
run() {
    local as=()
    mkdir "$1/rt"
    printf '#!/bin/sh\nmkdir -p out && cp %s out/cli\n' "$1/program" >"$1/rt/rt"
    chmod +x "$1/rt/rt"
    mkdir "$1/here/target"
    if [ "$(id -u)" -eq 0 ] && cmp -s bin/burgee "$1/here/bin/burgee"; then
        as=(setpriv --reuid=65534 --regid=65534 --clear-groups --no-new-privs)
        chown -R 65534:65534 "$1/here" "$1/tmp"
    fi
    (cd "$1/here" && TMPDIR=$1/tmp PATH=$1/rt:$PATH "${as[@]}" bash "tests/$2.sh") >"$1/said" 2>&1 </dev/null
}

# FOLDER: a copy of the repository in it.
copy() {
    mkdir -p "$1/tmp"
    cp -a "$work/sound" "$1/here"
}

# NUMBER TEST FILE SCRIPT: tries a fault; `told` is what is wrong with that.
try() {
    local folder=$work/$1 test=$2 file=$3 script=$4 name changed=
    copy "$folder"
    case $file in bin/* | tools/*) ;; *) file=crates/$file ;; esac
    # shellcheck disable=SC2086
    for name in $file; do
        sed -i "$script" "$folder/here/$name"
        cmp -s "$work/sound/$name" "$folder/here/$name"
        [ $? -ne 1 ] || changed=1
    done
    if [ -z "$changed" ]; then
        echo 'it changes nothing' >"$folder/told"
    elif ! compile "$folder"; then
        { echo 'it does not compile' && head -n 3 "$folder/compiled"; } >"$folder/told"
    elif run "$folder" "$test"; then
        echo 'IT IS NOT SEEN' >"$folder/told"
    fi
    rm -rf "$folder/here" "$folder/tmp"
}

# Without a fault each test passes.
mkdir "$work/0"
copy "$work/0"
compile "$work/0" || { cat "$work/0/compiled"; exit 2; }
for test in $(faults | grep -E -- "$only" | cut -d ' ' -f 1 | sort -u); do
    rm -rf "$work/0/rt" "$work/0/here/target"
    run "$work/0" "$test" || { echo "$test fails without a fault"; cat "$work/0/said"; exit 2; }
done

# As many at once as there are processors.
number=0
while IFS= read -r fault; do
    number=$((number + 1))
    mkdir "$work/$number"
    read -r test file what <<<"${fault%%: *}"
    echo "$file, $what; $test" >"$work/$number/what"
    while [ "$(jobs -rp | wc -l)" -ge "$(nproc)" ]; do wait -n; done
    try "$number" "$test" "$file" "${fault#*: }" &
done < <(faults | grep -E -- "$only")
wait

[ $number -gt 0 ] || { echo "no fault matches $only"; exit 2; }
status=0
for ((i = 1; i <= number; i++)); do
    if [ -e "$work/$i/told" ]; then
        echo "$(cat "$work/$i/what"): $(cat "$work/$i/told")"
        status=1
    else
        echo "$(cat "$work/$i/what"): $(grep -v -e '^burgee: it is' -e '^burgee: proved crate' "$work/$i/said" | head -n 1 | sed "s|$work/[0-9]*/||g; s|000*|0..|" | cut -c 1-160)"
    fi
done
[ $status -eq 0 ] && echo "wrong command lines: $number, each seen"
exit $status
