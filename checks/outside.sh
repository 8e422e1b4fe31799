#!/bin/bash
# Runs of the real program over what no test can hand it: words that aren't text, a DDL and a script of the greatest length, a
# full disk, an input that can't be read; and over the examples. Prints a line a run, and fails at the first that answers otherwise.
set -u
top=$(cd "$(dirname "$0")/.." && pwd)
work=$(mktemp -d)
trap 'rm -rf "$work"' EXIT
first="$top/examples/first"
words=(run "$first/one.ddl" "crm=csv:$first/data")

# A run's name, the status and the text that are wanted; $status and $work/out are what there was.
expect() {
    if [ "$status" != "$2" ] || [ "$(cat "$work/out")" != "$3" ]; then
        echo "$1: status $status, wanted $2; it printed:"
        head -n 5 "$work/out"
        exit 1
    fi
    echo "$1: as it should"
}

"$top/vdb" $'run\xff' >"$work/out" </dev/null; status=$?
expect "a word that isn't UTF-8" 2 'USAGE 1'

"$top/vdb" "${words[@]}" $'x\xff' >"$work/out" </dev/null; status=$?
expect "a later word that isn't UTF-8" 2 'USAGE 1'

"$top/vdb" run one.ddl >"$work/out" </dev/null; status=$?
expect "no connection" 2 'USAGE 3'

"$top/vdb" "${words[@]}" <"$first/bob.sql" >"$work/out"; status=$?
expect "the example" 0 "$(printf "COLUMNS id,name\nROW 2,'Bob'\nROW 3,'Bob'\nEND 2")"

"$top/vdb" run "$top/examples/shop/shop.ddl" "files=csv:$top/examples/shop/data" <"$top/examples/shop/report.sql" >"$work/out"; status=$?
expect "the shop's report" 1 "$(cat "$top/examples/shop/report.out")"

for nested in 64 65; do
    open=$(printf '(%.0s' $(seq $nested)) close=$(printf ')%.0s' $(seq $nested))
    "$top/vdb" "${words[@]}" <<<"SELECT ${open}1$close AS a;" >"$work/out"; status=$?
    if [ $nested = 64 ]; then
        expect "$nested parentheses" 0 "$(printf 'COLUMNS a\nROW 1\nEND 1')"
    else
        expect "$nested parentheses" 1 'REFUSED 1 at 71'
    fi
done

head -c 4194304 /dev/zero | tr '\0' ' ' >"$work/blank.ddl"
"$top/vdb" run "$work/blank.ddl" "crm=csv:$first/data" >"$work/out" </dev/null; status=$?
expect "a DDL of 4,194,304 spaces" 3 'DEPLOY 33 crm'

printf ' ' >>"$work/blank.ddl"
"$top/vdb" run "$work/blank.ddl" "crm=csv:$first/data" >"$work/out" </dev/null; status=$?
expect "a DDL of 4,194,305 spaces" 3 'DEPLOY 31 at 4194304'

head -c 16777216 /dev/zero | tr '\0' ' ' | "$top/vdb" "${words[@]}" >"$work/out"; status=$?
expect "16,777,216 spaces" 0 ''

head -c 16777217 /dev/zero | tr '\0' ' ' | "$top/vdb" "${words[@]}" >"$work/out"; status=$?
expect "16,777,217 spaces" 6 'TOO LONG'

: >"$work/out"
"$top/vdb" "${words[@]}" <"$first/bob.sql" >/dev/full; status=$?
expect "a full disk" 4 ''

"$top/vdb" "${words[@]}" <"$first" >"$work/out" 2>/dev/null; status=$?
expect "a folder as the script" 4 'FAULT feed'
