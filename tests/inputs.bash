# What the inputs for must-fail edits use, in docs/PROMISES.md. tests/edits_inputs.sh and tools/wrong_programs.py source it, with `burgee` the program that is asked.
V=010276310000000000000001                                       # a table of its version line only
EK=$V$'\n020167\n0301670175\n04010101016701720001016101016b012a' # the table of examples E to K

# the longest line of a log that is good: every string as long as it may be
LONGEST=$(
    printf '0140%s20%s10' "$(printf 75%.0s {1..64})" "$(printf 6f%.0s {1..32})"
    for _ in {1..16}; do
        printf '40%s04' "$(printf 61%.0s {1..64})"
        for last in 61 62 63 64; do
            printf '40%s%s40%s' "$(printf 6b%.0s {1..63})" $last "$(printf 76%.0s {1..64})"
        done
    done
)

# reported LINES LINE ..: these lines, as sed takes them, of the season report on the table of examples E to K and a log of these lines; or its refusal.
reported() {
    burgee report <(echo "$EK") <(printf '%s\n' "${@:2}") 2>&1 | sed -n "$1"
}

# of ACTION SUBJECT ID PATH ..: a table with user u in group g, and these rules to read.
of() {
    {
        printf 'version [v] time 0000000000000001\ngroup [g]\nmember [g] [u]\n'
        printf 'rule %s read %s id [%s] origin [] %s\n' "$@"
    } | burgee pack -
}

# turn KIND STEP ..: the last answer of a rotation of that kind. A step is one of the command line's, a probe of u reading /a or of an RPC to /a, or else a text to upload.
turn() {
    local file=target/turn.rotation step
    rm -f $file
    burgee rotate new $file "$1" >target/turn.answer
    for step in "${@:2}"; do
        case $step in
        start | finalize | close) burgee rotate "$step" $file ;;
        verdict | tree) burgee rotate "$step" $file u read '' /a ;;
        rpc) burgee rotate rpc $file '' /a ;;
        *) burgee rotate upload $file - <<<"$step" ;;
        esac >target/turn.answer
    done
    cat target/turn.answer
}
