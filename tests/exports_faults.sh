#!/usr/bin/env bash
# Ways to take away what is promised, or to hollow it out, each of which a part of tests/exports.sh has to see, and to complain of in these words. One that
# changes nothing is an error too. Each is tried on a copy; what stands in the repository is only read.
set -uo pipefail
cd "$(dirname "$0")/.."
export PYTHONDONTWRITEBYTECODE=1
work=$(mktemp -d) && mkdir "$work/repository" || exit
trap 'rm -rf "$work"' EXIT
tar -c --exclude=./target --exclude=./rust/target --exclude=./.git --exclude='./crates/*/out' . | tar -x -C "$work/repository" || exit

# COMMAND: makes this folder a copy of the repository, in which what the command names, and what else it may change, is copied, and the rest are links.
copy() {
    local from=$work/repository crate there
    mkdir -p crates rust/src
    ln -s "$from"/crates/* crates
    for crate in $(grep -o 'crates/[a-z_]*' <<<"$1" | sort -u); do
        rm "$crate" && cp -R "$from/$crate" crates
    done
    cp -R "$from"/{.ci,crates.txt,docs,include,tests} .
    cp -R "$from/rust/src/boundary" rust/src
    for there in "$from"/* "$from"/rust/*; do
        [ -e "${there#"$from"/}" ] || ln -s "$there" "${there#"$from"/}"
    done
}

# The sums of the files in this folder.
sums() {
    find . -type f -exec cksum {} + | sort
}

# NUMBER: tries the fault in this folder, and tells whether it is seen.
try() {
    local folder=$work/$1 part words command before
    { read -r part; read -r; read -r words; read -r command; } <"$folder/fault"
    mkdir "$folder/copy" && cd "$folder/copy" || return
    copy "$command"
    before=$(sums)
    bash -c "$command" >"$folder/said" 2>&1
    if [ "$before" = "$(sums)" ]; then
        echo "changes nothing: $(cat "$folder/said")"
        return
    fi
    case $part in
    gate) bash tests/exports.sh ;;
    reading) python3 tools/believed.py --check ;;
    *) python3 tests/"$part".py ;;
    esac >"$folder/said" 2>&1
    if [ $? -ne 1 ] || grep -q '^Traceback' "$folder/said"; then
        echo "is not seen: $(tail -n 3 "$folder/said")"
    elif ! grep -qF -e "$words" "$folder/said"; then
        echo "is not seen as \"$words\": $(head -n 3 "$folder/said")"
    else
        echo seen
    fi
    rm -rf "$folder/copy"
}

# A fault is two lines: the part that has to see it (`gate`: the whole test; `reading`: tools/believed.py), what it is, a piece of the complaint; and the command that does it.

# ---- of each exported function

# NAME: of its call's constructor.
call() {
    sed 's/^burgee//; s/_\([a-z]\)/\U\1/g' <<<"$1"
}

# FILE NAME: faults of the contract of this function. The lines from its name to its body are its head.
of_contract() {
    local file=$1 name=$2 call
    call=$(call "$name")
    local head="/fn $name(/,/^{/"
    cat <<END
exports | the contract of $name deleted | $name: its contract is not that of $call
    sed -i '$head{/^    ensures/,/^{/{/^{/!d}}' $file
exports | $name given a requires | $name: its contract is not that of $call
    sed -i '$head s/^    ensures/    requires { ⊥ }\n    ensures/' $file
exports | the contract of $name with another way out | $name: its contract is not that of $call
    sed -i '$head s/ }$/ ⊎ ⊤ }/' $file
exports | the contract of $name that of another call | $name: its contract is not that of $call
    sed -i '$head s/($call /(Other$call /' $file
END
}

of_contracts() {
    local file name
    while IFS=: read -r file name; do
        of_contract "$file" "$name"
    done < <(grep -o 'pub extern "C" fn [a-z_]*' crates/burgee_c/src/*.rt | sed 's/pub extern "C" fn //')
}

# ---- of single places

others() {
    cat <<'END'
exports | a contract that says nothing | its contract is not that of TableCheck
    sed -i 's/{ result ≡ word (TableCheck .*}/{ ⊤ }/' crates/burgee_c/src/lib.rt
exports | arguments exchanged | its contract is not that of PathVerdict
    sed -i '/PathVerdict/s/origin.now path.now/path.now origin.now/' crates/burgee_c/src/lib.rt
exports | one argument twice | its contract is not that of RpcVerdict
    sed -i '/RpcVerdict/s/identity.now path.now/path.now path.now/' crates/burgee_c/src/policies.rt
exports | numbers of a record exchanged | its contract is not that of ProbeTree
    sed -i '/ProbeTree (rec/s/live_slot live_len/live_len live_slot/' crates/burgee_c/src/probes.rt
exports | nothing said of the buffer | its contract does not say what it leaves in out
    sed -i '/fn burgee_path_read(/,/^{/{s/ensures .*/ensures { result ≡ word (PathRead text.now out.old) }/; /^        ×/d}' crates/burgee_c/src/lib.rt
exports | the buffer as it was lent | its contract does not say what it leaves in out
    sed -i '/fn burgee_path_write(/,/^{/s/out.new/out.old/' crates/burgee_c/src/lib.rt
exports | the store of an upload as it was lent | its contract does not say what it leaves in store
    sed -i '/fn burgee_upload(/,/^{/s/store.new/store.old/' crates/burgee_c/src/records.rt
exports | two clauses | its contract is not that of GroupCount
    sed -i '/word (GroupCount/s/$/\n    ensures { result ≡ 0 }/' crates/burgee_c/src/lib.rt
exports | a comment in place of a contract | its contract is not that of PolicyCheck
    sed -i '/word (PolicyCheck/s:^:// :' crates/burgee_c/src/policies.rt
exports | another sign of equality | ◌≡◌, which its contracts name, does not come from
    sed -i 's/^ghost use Rattle.std.specs.Prelude.{◌≡◌};/ghost use Rattle.std.specs.Other.{◌≡◌};/' crates/burgee_c/src/lib.rt
exports | a sign of equality of our own | as it should not
    sed -i 's/^ghost use Rattle.std.specs.Prelude.{◌≡◌};/ghost use Rattle.burgee.specs.Word.{◌≡◌};/' crates/burgee_c/src/lib.rt
exports | another definition as word | as it should not
    sed -i 's/, word}/, before as word}/' crates/burgee_c/src/policies.rt
exports | word of another file | word, which its contracts name, does not come from
    sed -i 's/, word};/};\nghost use Rattle.burgee.specs.Word.{word};/' crates/burgee_c/src/policies.rt
exports | a name brought in twice | as it should not
    sed -i 's/^\(ghost use .*\){PolicyCheck, /\1{PolicyCheck, PolicyCheck, /' crates/burgee_c/src/policies.rt
exports | another product | as it should not
    sed -i 's/^ghost use Rattle.std.specs.Prelude.{◌≡◌};/ghost use Rattle.std.specs.Prelude.{◌≡◌, ◌×◌};/' crates/burgee_c/src/lib.rt
exports | a parameter that hides a name | its parameter word hides
    sed -i '/fn burgee_policy_check(/,/^{/s/\bpolicy\b/word/' crates/burgee_c/src/policies.rt
exports | a clause that is for the prover alone | `ghost` elsewhere than in a line
    sed -i 's/^    ensures { result ≡ word (TableCheck/    ghost { n : ℕ }\n&/' crates/burgee_c/src/lib.rt
exports | a record and a store of which nothing is held | does not say: held
    sed -i 's/^held rec store = .*/held rec store = nothing/' crates/burgee/specs/Calls.antt
exports | a record that is always on | does not say: record_of
    sed -i '/^record_of kind/s/rotating = rotating/rotating = 1/' crates/burgee/specs/Calls.antt
exports | a loan without its record | does not say: pub record Loan
    sed -i '/^  pub rec : Option Record/d' crates/burgee/specs/Calls.antt
exports | a word cut to its action | does not say: word
    sed -i 's/^word c = (outcome c).word/& % 2 ^ 16/' crates/burgee/specs/Calls.antt
exports | a definition that goes on in the next line | does not say: after
    sed -i 's/^after c = (outcome c).after/&\n    .rec/' crates/burgee/specs/Calls.antt
exports | a constructor dropped | TreeVerdict: a call, but not among the constructors
    sed -i '/^  TreeVerdict : /d' crates/burgee/specs/Calls.antt
exports | a declaration dropped | burgee_close: a call, but not among the declarations
    sed -i '/^uint64_t burgee_close(/d' include/burgee.h
exports | an export dropped | burgee_start: not a call, but among the declarations
    sed -i '/#\[unsafe(no_mangle)\]/{N; s/#\[unsafe(no_mangle)\]\npub extern "C" fn burgee_start(/pub fn burgee_start(/}' crates/burgee_c/src/records.rt
exports | a constructor that is given less | is given
    sed -i 's/^  RpcVerdict : (policy identity path headers : Str)/  RpcVerdict : (policy identity path : Str)/' crates/burgee/specs/Calls.antt
exports | a constructor's arguments exchanged | is given
    sed -i 's/^  GroupCount : (table user : Str)/  GroupCount : (user table : Str)/' crates/burgee/specs/Calls.antt
exports | a constructor too many | Reset: not a call
    sed -i 's/^  Close : .*/&\n  Reset : (rec : Record) (store : Str) → PublicCall/' crates/burgee/specs/Calls.antt
exports | an export too many | burgee_reset: a call, but not among
    sed -i '$ s/$/\n\n#[unsafe(no_mangle)]\npub extern "C" fn burgee_reset(table: \&[u8]) -> u64\n    ensures { result ≡ word (Reset table.now) }\n{\n    0\n}/' crates/burgee_c/src/lib.rt
exports | an export of another crate | marks of exports
    sed -i '$ s/$/\n\n#[unsafe(no_mangle)]\npub extern "C" fn burgee_reset() -> u64\n{\n    0\n}/' crates/text/src/lib.rt
exports | an export that calls another function | is not the call of its function of burgee
    sed -i 's/burgee::burgee_tree_verdict(/burgee::burgee_path_verdict(/' crates/burgee_c/src/lib.rt
exports | an export that calls its function on other arguments | is not the call of its function of burgee
    sed -i 's/burgee_group_count(table, user)/burgee_group_count(user, table)/' crates/burgee_c/src/lib.rt
exports | a function of the library that says less | burgee_close: its contract is not that of Close
    sed -i '/fn burgee_close(/,/^{/s/ensures .*/ensures { (result ≡ 0)/' crates/burgee/src/records.rt
exports | a function of C | marks of exports
    sed -i '$ s/$/\n\nunsafe extern "C" { safe fn magic() -> u64 ensures { result ≡ 8 }; }/' crates/text/src/lib.rt
exports | a call that Rust does not try | among the calls of rust
    sed -i '/burgee_close/d' rust/src/boundary/rotation.rs
exports | a row dropped | among the rows of docs/PROMISES.md
    sed -i '/^| `burgee_tree_verdict`/d' docs/PROMISES.md
exports | a row that leaves a call out | burgee_probe_tree: a call, but not among the rows
    sed -i 's/^| `burgee_probe_path`, `burgee_probe_tree` |/| `burgee_probe_path` |/' docs/PROMISES.md
exports | an answer that is not read back | ProbeTree: a call, but not among the calls of crates/promises/specs/Words.antt
    sed -i '/word (ProbeTree/d' crates/promises/specs/Words.antt
exports | a step whose answer is not read back | Close: a call, but not among the calls of crates/promises/specs/Words.antt
    sed -i '/^publicly Close/d' crates/promises/specs/Leaves.antt
exports | no step's answer is read back | Upload: a call, but not among the calls of crates/promises/specs/Words.antt
    sed -i '/word (publicly/d' crates/promises/specs/Words.antt
reading | a promise without one of its fields | this file changed: promises/Verdicts
    sed -i '/pub only : (a : Tree)/d' crates/promises/specs/Verdicts.antt
reading | a definition that says something else | this file changed: verdict/Order
    sed -i 's/more (definites r.path) (definites s.path)/more (definites s.path) (definites r.path)/' crates/verdict/specs/Order.antt
reading | a promise that no longer speaks of a function which it determined | promises/Probes does not speak of probe_tree
    sed -i '/probe_tree/d' crates/promises/specs/Probes.antt
exports | a row twice | two rows
    sed -i '/^| `burgee_tree_verdict`/p' docs/PROMISES.md
promises | a crate named that is not there | policy_faults: a crate that docs/PROMISES.md names, but not there
    sed -i 's/`policy_fault`/`policy_faults`/' docs/PROMISES.md
promises | a promise's row dropped | Rotation: in crates/promises/specs, but not
    sed -i '/^| `Rotation` |/d' docs/PROMISES.md
promises | a promise dropped | Rotation: in the first table of docs/PROMISES.md, but not
    rm crates/promises/specs/Rotation.antt
promises | a promise dropped with its proof | Probes: in the first table of docs/PROMISES.md, but not
    rm crates/promises/*/Probes.antt && sed -i '/Probes/d' crates/promises/*/Lib.antt
promises | a promise without a proof | AnyBytes: nothing of crates/promises/proofs proves it
    rm crates/promises/proofs/AnyBytes.antt
promises | a file that states nothing | AnyBytes states no promise
    sed -i 's/^abbrev pub AnyBytes : Type 0/abbrev AnyBytes : Type 0/' crates/promises/specs/AnyBytes.antt
promises | a theorem that is not public | Rpc: no theorem
    sed -i 's/^  pub rpc_promise : /  rpc_promise : /' crates/promises/proofs/Rpc.antt
promises | a theorem of something else | AnyBytes: no theorem
    sed -i 's/^pub any_bytes : AnyBytes/pub any_bytes : ⊤/' crates/promises/proofs/AnyBytes.antt
promises | a theorem that assumes more | Verdicts: no theorem
    sed -i 's/^  pub tree_promise : /  pub tree_promise : (no : ⊥) → /' crates/promises/proofs/Verdicts.antt
promises | a section that assumes more | Groups: no theorem
    sed -i 's/^\(module _ (x user : Str) (ok .*\) where/\1 (no : ⊥) where/' crates/promises/proofs/Groups.antt
promises | a section that assumes something else | Rpc: no theorem
    sed -i 's/(fine : rpc_refusal identity path headers ≡ clear) where/(fine : rpc_refusal identity identity headers ≡ clear) where/' crates/promises/proofs/Rpc.antt
promises | a theorem of one case | Rotation: no theorem
    sed -i 's/^pub rotation_promise : (l : Lent) (w : Whole l) → RotationPromise l w/pub rotation_promise : (l : Lent) (w : Whole l) → RotationPromise factory w/' crates/promises/proofs/Rotation.antt
promises | a promise of another file under its name | AnyBytes: no theorem
    sed -i '/specs.AnyBytes/s/AnyBytes}/Weaker as AnyBytes}/' crates/promises/proofs/AnyBytes.antt
promises | an assumption of another meaning | Verdicts: no theorem
    sed -i 's/^use Rattle.table.specs.Text.{check, /use Rattle.table.specs.Other.{check, /' crates/promises/proofs/Verdicts.antt
promises | an edit dropped | verdict/user_before_keys: named as one by docs/PROMISES.md, but not an edit
    rm crates/verdict/must-fail/user_before_keys.edit
promises | an edit that the page does not name | text/prefix_same: an edit, but not named
    sed -i 's:`text/prefix_same`::' docs/PROMISES.md
promises | an edit of a definition without its mark | rpc/allow_first: an edit of a definition, but not marked
    sed -i 's:`rpc/allow_first` †:`rpc/allow_first`:' docs/PROMISES.md
promises | an edit of a program with a mark | rpc/star_empty: marked †, but not
    sed -i 's:`rpc/star_empty`:`rpc/star_empty` †:' docs/PROMISES.md
promises | a call with one edit | burgee_group_count`: not two wrong programs
    sed -i '/^| `burgee_group_count`/s:`[a-z_]*/[a-z_]*`::2g' docs/PROMISES.md
promises | the promises not proved | promises: a folder of crates/, but not in crates.txt
    sed -i '/^promises:/d' crates.txt
promises | the promises gone | promises: a crate, but not proved
    rm -r crates/promises/src && sed -i '/^promises:/d' crates.txt
promises | a crate that is not proved | a folder of crates/, but not in crates.txt
    sed -i '/^readable_laws:/d' crates.txt
promises | a file that is not there | tests/lines.sh: named by docs/PROMISES.md, and not there
    rm tests/lines.sh
promises | a table that is not there | has no table with a column `file`
    sed -i 's/^| file |/| page |/' docs/PROMISES.md
assumptions | an axiom among definitions | an axiom
    sed -i '$ s/$/\n\naxiom pub trust : ⊥/' crates/verdict/specs/Order.antt
assumptions | an axiom among proofs | an axiom
    sed -i '$ s/$/\n\naxiom pub trust : ⊥/' crates/promises/proofs/Rpc.antt
assumptions | excluded middle | an axiom
    sed -i '1 s/^/use Prim.Axiom.{lem}\n/' crates/promises/proofs/Rpc.antt
assumptions | a hole | a hole
    sed -i 's/^any_bytes (TableCheck table) bad = refl/any_bytes (TableCheck table) bad = ?/' crates/promises/proofs/AnyBytes.antt
assumptions | code for another target | an attribute
    sed -i 's/^pub mod records;/#[cfg(target = other)]\npub mod records;/' crates/burgee_c/src/lib.rt
assumptions | unsafe code | `unsafe`
    sed -i 's/^pub extern "C" fn burgee_table_check/pub unsafe extern "C" fn burgee_table_check/' crates/burgee_c/src/lib.rt
assumptions | a definition that rests on proofs | rests on a file of proofs
    sed -i '1 s/^/use Rattle.text.proofs.Tests.{by}\n/' crates/verdict/specs/Verdict.antt
assumptions | a contract that rests on proofs | rests on a file of proofs
    sed -i 's/^ghost use Rattle.burgee.specs.Calls/ghost use Rattle.rotation.proofs.Calls/' crates/burgee_c/src/probes.rt
assumptions | an operator of the library declared anew | ◌≡◌ is that of
    sed -i '$ s/$/\n\nabbrev pub ◌≡◌ : ℕ → ℕ → Type 0\nx ≡ y = ⊤/' crates/verdict/specs/Order.antt
assumptions | an operator of another file | ◌≡◌ is that of
    sed -i 's/^use Rattle.std.specs.Prelude.{\(.*\)◌≡◌/use Rattle.std.specs.Other.{\1◌≡◌/' crates/promises/specs/Verdicts.antt
assumptions | functions of C in the library | burgee_c reaches libc
    sed -i 's/^text_search: text/& libc/' crates.txt
gate | a test left out of the gate | tests/limits.sh is no phase of .ci/run
    sed -i '/tests\/limits.sh/d' .ci/run
gate | a contract deleted, as the gate sees it | its contract is not that of PathVerdict
    sed -i '/{ result ≡ word (PathVerdict/d' crates/burgee_c/src/lib.rt
gate | no Python | python3
    mkdir alone && ln -s "$(command -v bash)" alone && sed -i 's/^export PYTHON.*/&; PATH=$PWD\/alone/' tests/exports.sh
END
}

number=0
while IFS= read -r fault && read -r command; do
    number=$((number + 1))
    mkdir "$work/$number"
    printf '%s\n' "${fault// | /$'\n'}" "$command" >"$work/$number/fault"
done < <(of_contracts; others)

# As many at once as there are processors.
export work
export -f copy sums try
before=$(cd "$work/repository" && sums)
seq "$number" | xargs -P "$(nproc)" -n 1 bash -c 'try "$0" >"$work/$0/told" 2>&1'

status=0
[ "$number" -gt 100 ] || { echo "exports faults: only $number were found"; status=1; }
[ "$before" = "$(cd "$work/repository" && sums)" ] || { echo "exports faults: one changes what is not copied for it"; status=1; }
for ((i = 1; i <= number; i++)); do
    told=$(cat "$work/$i/told")
    [ "$told" = seen ] || { echo "exports fault \"$(sed -n 2p "$work/$i/fault")\" ${told:-was not tried}"; status=1; }
done
[ $status -eq 0 ] && echo "exports faults: $number seen"
exit $status
