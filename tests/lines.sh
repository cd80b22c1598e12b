#!/usr/bin/env bash
# The line that is told of a faulty policy. Each edit puts one fault into the example policy.
set -uo pipefail
cd "$(dirname "$0")/.."
work=$(mktemp -d)
trap 'rm -rf "$work"' EXIT

status=0
tried=0

# NUMBER LINE WRITTEN: the refusal by this number at this line of $work/policy, and the line itself, with bytes that do not print in hex.
judge() {
    tried=$((tried + 1))
    local line told
    line=$(sed -n "$2p" "$work/policy" | LC_ALL=C sed 's/\x01/\\x01/g;s/\xc3/\\xc3/g;s/\xa9/\\xa9/g')
    told=${3%%: *}
    if [ "$told" != "refused $1 at line $2" ] || [ "${3#*$'\n'}" != "line: $line" ]; then
        echo "expected $1 at line $2 after the edit $edit: $3"
        status=1
    fi
}

# NUMBER LINE EDIT, for sed
expect() {
    edit=$3
    sed "$edit" examples/files/yard.json >"$work/policy"
    judge "$1" "$2" "$(bin/burgee policy "$work/policy")"
}

# N times the text T
times() {
    local t
    t=$(printf "%$1s")
    echo "${t// /$2}"
}

# 31: not one JSON value
expect 31 3 '2s/,//'                            # no comma
expect 31 7 '7s/$/,/'                           # a comma too many, in an object
expect 31 8 '8s/$/,/'                           # and in a list
expect 31 10 '10s/\[/[,/'                       # before the first item
expect 31 18 '18s/Get"/Get/'                    # a string that ends too late
expect 31 16 '16s/readers"/readers/'            # and one that does not end
expect 31 6 '6s/dryer/dr\x01er/'                # a byte that does not print
expect 31 6 '6s/dryer/dr\xc3\xa9er/'
expect 31 5 '5s/no_/no\\_/'                     # no such escape
expect 31 12 '12s/"officers"/yes/'              # no value
expect 31 12 '12s/"officers"/012/'
expect 31 5 '5s/:/ /'                           # no colon
expect 31 5 '5s/"name"/name/'                   # no quotes
expect 31 9 '9s/]/}/'                           # closed by the wrong byte
expect 31 22 '$d'                               # an end too early
expect 31 10 '11,$d'
expect 31 24 '$a x'                             # and more after it
expect 31 24 '$a ,'
expect 31 1 '1s/^/7 /'
expect 31 2 '2s/"yard"/[[[[[[[[[[[[[[[[]]]]]]]]]]]]]]]]/'
expect 31 19 '18s/\[.*\]/[[[[[[[[[[[[\n[]]]]]]]]]]]]]/'

# 32: a member name twice, at the second one
expect 32 3 2p
expect 32 17 16p
expect 32 10 '7s/$/,\n"more": [{ "a": 1,\n"b": { "a": 2 },\n"a": 3 }]/'
expect 32 19 '19s/"key"/"key": [], "key"/'
expect 32 4 '2s/"yard"/[1, { "a": { "a": 1 },\n"b": 2,\n"a": 3 }]/'
expect 32 3 '2s/$/"\\u0061": 1,\n"\\u0061": 2,/'

# 33: not the schema
expect 33 12 '12s/name/nane/'                   # a member that it does not know
expect 33 10 '10s/rules/rule/'
expect 33 19 '19s/key/"keys"/;19s/""/"/g'
expect 33 11 12d                                # a member that it asks for: the object without it
expect 33 1 2d
expect 33 19 '19s/, "values.*"\]//'
expect 33 6 '6s/\[.*\]/"dryer"/'                # another kind of value
expect 33 18 '18s/\[/[7, /'
expect 33 17 '17,20c "request": null'
expect 33 2 '2s/"yard"/true/'
expect 33 2 '1s/.*/\n["yard"]/;2,$d'

# 34: a backslash
expect 34 2 '2s/yard/y\\u0061rd/'
expect 34 18 '18s/Get/\\nGet/'
expect 34 19 '19s/site/si\\\\te/'

# 35: a limit passed, or empty
expect 35 2 "2s/yard/$(times 257 y)/"           # a string
expect 35 18 "18s/Get/$(times 257 G)/"
expect 35 2 '2s/yard//'
expect 35 16 '16s/readers//'
expect 35 19 '19s/site//'
expect 35 19 '19s/\["north.*"\]/[]/'            # a list
expect 35 18 "18s/\[/[$(times 33 '"G",')/"
expect 35 19 "19s/{.*}/$(times 32 '{"key":"a","values":["b"]},'){\"key\":\"a\",\"values\":[\"b\"]}/"
expect 35 10 "10s/\[/[$(times 63 '{"name":"a"},')/"

# 36: an asterisk within a pattern
expect 36 7 '7s/Reboot/*boot/'
expect 36 13 '13s/\*/**/'
expect 36 19 '19s/north/*north*/'

# 37: a header's key
expect 37 19 '19s/site/host/'
expect 37 19 '19s/site/grpc-site/'
expect 37 19 '19s/site/Site/'
expect 37 21 '19s/\[ /[\n{ "key": "a", "values": ["b"] },\n/;19s/site/te/'

# 38: a rule's name twice, at the second one
expect 38 16 '16s/readers/officers/'
expect 38 9 '8s/$/,\n{ "name": "no_reboot" }/'
expect 38 24 '21s/$/,\n{ "name": "x" },\n{ "request": {},\n"name": "officers" }/'

# The RPC verdict and the upload of a policy tell the same.
edit='19s/site/host/'
sed "$edit" examples/files/yard.json >"$work/policy"
judge 37 19 "$(bin/burgee rpc "$work/policy" spiffe://yard/officer/1 /gnmi.gNMI/Get)"
bin/burgee rotate new "$work/rotation" policy >"$work/written"
bin/burgee rotate start "$work/rotation" >"$work/written"
judge 37 19 "$(bin/burgee rotate upload "$work/rotation" "$work/policy")"

[ $status -eq 0 ] && echo "lines: $tried faults, ok"
exit $status
