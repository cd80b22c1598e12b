#!/usr/bin/env bash
# Single faults of the C header, each of which tests/header.sh has to see. A fault is a sed script; one that changes nothing, or does not compile, is
# an error too.
set -uo pipefail
cd "$(dirname "$0")/.."
work=$(mktemp -d)
trap 'rm -rf "$work"' EXIT

# NUMBER: tries the fault in this folder, and tells whether it is seen.
try() {
    local folder=$work/$1
    sed "$(cat "$folder/fault")" include/burgee.h >"$folder/burgee.h"
    if cmp -s include/burgee.h "$folder/burgee.h"; then
        echo "changes nothing"
        return
    fi
    bash tests/header.sh "$folder" >"$folder/said" 2>&1
    case $? in
    0) echo "is not seen" ;;
    1) echo seen ;;
    *) echo "does not compile: $(head -n 5 "$folder/said")" ;;
    esac
}

# Lines `WHAT: SED SCRIPT`. `in NAME SCRIPT` is a script for the body of that function.
faults() {
    sed 's/: in \([a-z_]*\) \(.*\)/: \/^static inline .*burgee_\1(\/,\/^}\/\2/' <<'END'
refusals 14 and 15 exchanged: s/CANDIDATE 14u/CANDIDATE 15u/; s/REFUSED_RECORD 15u/REFUSED_RECORD 14u/
refusals 12 and 13 exchanged: s/REFUSED_ON 12u/REFUSED_ON 13u/; s/REFUSED_OFF 13u/REFUSED_OFF 12u/
refusal 41 is 42: s/HEADERS 41u/HEADERS 42u/
refusal 9 is 10: s/UNLISTED 9u/UNLISTED 10u/
refusals 50 and 51 exchanged: s/LOG_LENGTH 50u/LOG_LENGTH 51u/; s/LOG_LINE 51u/LOG_LINE 50u/
the refusal number cut to five bits: in answer_refusal s/0xFFu/0x1Fu/
the line cut to a byte: in answer_line s/(uint32_t)(/(uint8_t)(/
the line cut to two bytes: in answer_line s/(uint32_t)(/(uint16_t)(/
a line with every number: in answer_line s/ && number <= [A-Z_]*//
a line where nothing is refused: in answer_line s/number != 0 && //
no line with 9: in answer_line s/<=/</
no line with 51: in answer_line s/ || number == [A-Z_]*//
a line with 50 too: in answer_line s/number == BURGEE_REFUSED_LOG_LINE/number >= BURGEE_REFUSED_LOG_LENGTH/
a line with the number after 9: in answer_line s/<= [A-Z_]*;/<= BURGEE_REFUSED_STORE;/
the rule cut to a byte: in answer_rule s/0xFFFFu/0xFFu/
the rule as it is stored: in answer_rule s/ - 1;/;/
the first group cut to five bits: in answer_first_group s/0xFFFFu/0x1Fu/
the first group as it is stored: in answer_first_group s/ - 1;/;/
the length cut to 12 bits: in answer_length s/burgee_answer_accepted(answer)/(burgee_answer_accepted(answer) \& 0xFFFu)/
the length cut to 16 bits: in answer_length s/(uint32_t)/(uint16_t)/
a count of 64 read as 0: in answer_group_count s/0xFFu/0x3Fu/
the length of a refusal: in answer_length s/burgee_answer_accepted(answer)/(answer >> 8)/
the group count of a refusal: in answer_group_count s/burgee_answer_accepted(answer)/(answer >> 8)/
the first group of a refusal: in answer_first_group s/burgee_answer_accepted(answer)/(answer >> 8)/
the rule of a refusal: in answer_rule s/burgee_answer_accepted(answer)/(answer >> 8)/
the tree of a refusal: in answer_tree s/burgee_answer_accepted(answer)/(answer >> 8)/
the action of a refusal: in answer_action s/burgee_is_permitted(answer)/(answer >> 8 \& 0xFFu) == BURGEE_PERMIT/
a refusal is permitted: in is_permitted s/burgee_answer_accepted(answer)/(answer >> 8)/
a refusal counts as accepted: in answer_accepted s/ == 0 ? answer >> 8 : 0/ < 256 ? answer >> 8 : 0/
what is not denied is permitted: in is_permitted s/== BURGEE_PERMIT/!= BURGEE_DENY/
permitted only by default: in is_permitted s/ & 0xFFu)/ \& 0xFFFFu)/
permitted is told as denied: in is_permitted s/== BURGEE_PERMIT/== BURGEE_DENY/
an action of 2 is given on: in answer_action s/burgee_is_permitted.*;/(unsigned)(burgee_answer_accepted(answer) \& 0xFFu);/
the actions exchanged: s/BURGEE_DENY 0u/BURGEE_DENY 1u/; s/BURGEE_PERMIT 1u/BURGEE_PERMIT 0u/
the actions exchanged in their reader: in answer_action s/BURGEE_PERMIT : BURGEE_DENY/BURGEE_DENY : BURGEE_PERMIT/
ALL and MIXED exchanged: s/TREE_ALL 1u/TREE_ALL 2u/; s/TREE_MIXED 2u/TREE_MIXED 1u/
a tree answer of 3 is given on: in answer_tree s/<= BURGEE_TREE_MIXED/<= 255u/
what is no tree answer is ALL: in answer_tree s/: BURGEE_TREE_NONE/: BURGEE_TREE_ALL/
the modes exchanged: s/BURGEE_READ 1u/BURGEE_READ 2u/; s/BURGEE_WRITE 2u/BURGEE_WRITE 1u/
the kinds exchanged: s/KIND_POLICY 1u/KIND_POLICY 2u/; s/KIND_TABLE 2u/KIND_TABLE 1u/
none is 0: s/BURGEE_NONE 0xFFFFFFFFu/BURGEE_NONE 0u/
a store too short: s/STORE_LEN 65536u/STORE_LEN 65535u/
a buffer too short: s/PATH_TEXT_MAX 13520u/PATH_TEXT_MAX 13519u/
a report too short: s/REPORT_MAX 2096u/REPORT_MAX 2095u/
a log too long: s/LOG_LINES_MAX 1000000u/LOG_LINES_MAX 1000001u/
another version number: s/BURGEE_VERSION 100/BURGEE_VERSION 101/
two texts exchanged: s/case BURGEE_REFUSED_ON:/case BURGEE_REFUSED_OFF :/; s/case BURGEE_REFUSED_OFF:/case BURGEE_REFUSED_ON:/
another word in a text: s/there is no candidate/there is a candidate/
no text: s/return "no refusal number of this version"/return 0/
no number for a text: s/case BURGEE_REFUSED_STORE:/case 250:/
a factory record that rotates: in factory_record s/rotating = 0/rotating = 1/
a factory record with a live text: in factory_record s/live_len = BURGEE_NONE/live_len = 0/
a factory record with a candidate: in factory_record s/candidate_len = BURGEE_NONE/candidate_len = 0/
a factory record of slot 1: in factory_record s/live_slot = 0/live_slot = 1/
a factory record of one kind: in factory_record s/kind = kind/kind = 2/
parts of the record exchanged: s/uint32_t live_slot;/uint32_t live_len ;/; s/uint32_t live_len;/uint32_t live_slot;/
the tree probe passes slot 0: in record_probe_tree s/record->live_slot/0/
the path probe passes rotating 1: in record_probe_path s/record->rotating/1/
the RPC probe passes rotating 0 or 1: in record_probe_rpc s/record->rotating/record->rotating != 0/
the path probe exchanges the lengths: in record_probe_path {s/>live_len/>swap/; s/>candidate_len/>live_len/; s/>swap/>candidate_len/}
the tree probe passes a mode: in record_probe_tree s/user_len, mode, origin,/user_len, BURGEE_READ, origin,/
the tree probe passes the origin as user: in record_probe_tree s/store_len, user, user_len/store_len, origin, user_len/
the path probe passes a length of the store: in record_probe_path s/store, store_len, user/store, BURGEE_STORE_LEN, user/
the RPC probe exchanges identity and path: in record_probe_rpc s/identity, identity_len, path, path_len/path, path_len, identity, identity_len/
the RPC probe passes a kind: in record_probe_rpc s/record->kind/BURGEE_KIND_POLICY/
the path probe is the tree's: in record_probe_path s/return burgee_probe_path/return burgee_probe_tree/
parameters of a declaration exchanged: /^uint64_t burgee_tree_verdict/,/;/{s/origin/swap/g; s/\<path/origin/g; s/swap/path/g}
table and log of a report exchanged: /^uint64_t burgee_season_report/,/;/{s/table/swap/g; s/\<log/table/g; s/swap/log/g}
a report that is not to be stored to: /^uint64_t burgee_season_report/s/uint8_t \*out/const uint8_t *out/
a store that is not to be stored to: /^uint64_t burgee_upload/s/uint8_t \*store/const uint8_t *store/
END
}

number=0
while IFS= read -r fault; do
    number=$((number + 1))
    mkdir "$work/$number"
    printf '%s\n' "${fault%%: *}" >"$work/$number/what"
    printf '%s\n' "${fault#*: }" >"$work/$number/fault"
done < <(faults)

# As many at once as there are processors.
export work
export -f try
seq "$number" | xargs -P "$(nproc)" -n 1 bash -c 'try "$0" >"$work/$0/told" 2>&1'

status=0
[ "$number" -gt 50 ] || { echo "header faults: only $number were found"; status=1; }
for ((i = 1; i <= number; i++)); do
    told=$(cat "$work/$i/told")
    [ "$told" = seen ] || { echo "header fault \"$(cat "$work/$i/what")\" ${told:-was not tried}"; status=1; }
done
[ $status -eq 0 ] && echo "header faults: $number seen"
exit $status
