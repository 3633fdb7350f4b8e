#!/usr/bin/env bash
# The program `report` (document 02, L12): its examples to the byte, every kind of bad line, 1,000 and 1,001 lines, long input; random
# trials, and the trials of played histories, against the plain program; the acceptance run of bench/; and the names that it prints
# against those of the header, of rust/skid and of the console. Ends with 1 if anything is not as expected.
set -euo pipefail
cd "$(dirname "$0")/.."
. tests/lib.sh

build_plain
build_bench
[ -e crates/report/out/report ] || {
    echo "no report at crates/report/out/report: build it first"
    exit 1
}
room=$(mktemp -d)
trap 'rm -rf "$room"' EXIT

wrong=0
cases=0

complain() {
    echo "$@"
    wrong=$((wrong + 1))
}

# both NAME: the input $room/in through both programs, which must print the same
both() {
    cases=$((cases + 1))
    program report <"$room/in" >"$room/report" || complain "$1: the report ended with status $?"
    target/rust/release/report <"$room/in" >"$room/plain" || complain "$1: the plain program ended with status $?"
    cmp -s "$room/plain" "$room/report" && return
    complain "$1: DIFFERENT from the plain program"
    show_difference "$room/plain" "$room/report"
}

# wanted NAME: what both print of $room/in is $room/wanted
wanted() {
    both "$1"
    cmp -s "$room/wanted" "$room/report" && return
    complain "$1: not as expected"
    show_difference "$room/wanted" "$room/report"
}

# prints NAME INPUT OUTPUT: the two as printf reads them
prints() {
    printf -- "$2" >"$room/in"
    printf -- "$3" >"$room/wanted"
    wanted "$1"
}

# lines N LINE: a line so often
lines() {
    awk -v n="$1" -v line="$2" 'BEGIN { for (i = 0; i < n; i++) print line }'
}

# ---- document 02's examples, and a case for each sentence
prints "one granted trial" '1 0\n' 'trials 1\ngrants 1\nattempts 1 of 1 trials\ngreatest 1\n'
prints "no trials" '' 'trials 0\ngrants 0\nattempts 0 of 0 trials\ngreatest 0\n'
prints "one refusal 11" '4096 11\n' 'trials 1\ngrants 0\nattempts 4096 of 1 trials\ngreatest 4096\n11 SerializationFailure 1\n'
prints "number order" '2 16\n9 1\n3 0\n7 16\n' \
    'trials 4\ngrants 1\nattempts 21 of 4 trials\ngreatest 9\n1 BadShape 1\n16 StaleBoot 2\n'
prints "no attempts" '0 5\n0 0\n' 'trials 2\ngrants 1\nattempts 0 of 2 trials\ngreatest 0\n5 BadBinding 1\n'
prints "most attempts" '262144 0\n' 'trials 1\ngrants 1\nattempts 262144 of 1 trials\ngreatest 262144\n'

# ---- bad lines: alone, behind good ones, and in front of others
bad=('' ' ' '1' '1 ' ' 0' ' 1 0' '1 0 ' '1  0' '1 0 0' '1\t0' '1 0\r' '\r' 'x' 'a 0' '1 a' '1a 0' '1 0a' '00 0' '01 0' '0262144 0' '1 00'
    '1 01' '1 016' '262145 0' '262150 0' '999999 0' '1000000 0' '4294967296 0' '4294967297 0' '18446744073709551616 0'
    '18446744073709551617 1' '1 17' '1 26' '1 116' '1 4294967296' '1 4294967312' '1 18446744073709551616' '-1 0' '+1 0' '1 -0' '1.0 0' '1,0'
    '# a remark' '1 0\0' '\0' '\0771 0' '1 0\0771 0')
for line in "${bad[@]}"; do
    prints "bad line '$line'" "$line\n" 'bad line 1\n'
    prints "bad line '$line', third" "1 0\n262144 16\n$line\n1 0\n" 'bad line 3\n'
    prints "bad line '$line' and another" "1 0\n$line\n$line\nx\n" 'bad line 2\n'
    [ -z "$line" ] || prints "bad line '$line', no line feed" "1 0\n$line" 'bad line 2\n'
done
prints "no line feed" '1 0' 'bad line 1\n'
prints "no line feed in the second" '1 0\n1 0' 'bad line 2\n'

# ---- 1,000 lines, and line 1,001
lines 1000 '1 0' >"$room/in"
printf 'trials 1000\ngrants 1000\nattempts 1000 of 1000 trials\ngreatest 1\n' >"$room/wanted"
wanted "1,000 lines"
lines 1000 '262144 16' >"$room/in"
printf 'trials 1000\ngrants 0\nattempts 262144000 of 1000 trials\ngreatest 262144\n16 StaleBoot 1000\n' >"$room/wanted"
wanted "1,000 of the longest lines"
for more in '1 0\n' '1 0' '\n' 'x' '1' '262144 16\n' '1 17\n'; do
    for line in '1 0' '262144 16'; do
        { lines 1000 "$line" && printf -- "$more"; } >"$room/in"
        printf 'bad line 1001\n' >"$room/wanted"
        wanted "1,000 lines of $line and '$more'"
    done
done
{ lines 999 '262144 16' && printf '262144 17\n1 0\n'; } >"$room/in"
printf 'bad line 1000\n' >"$room/wanted"
wanted "a bad line 1,000"

# ---- no longest input
{ lines 300000 '262144 16'; } >"$room/in"
printf 'bad line 1001\n' >"$room/wanted"
wanted "300,000 lines"
for byte in 0 1 x ' '; do
    { lines 3 '1 0' && head -c 3000000 /dev/zero | tr '\0' "$byte"; } >"$room/in"
    printf 'bad line 4\n' >"$room/wanted"
    wanted "3,000,000 times '$byte'"
done

# ---- random trials
for seed in $(seq 1 "${1:-200}"); do
    target/rust/release/trials random "$seed" >"$room/in"
    both "trials random $seed"
done

# ---- the acquisitions of random histories, up to 1,000 of each
played=0
for seed in 20261115 20261116 20261117; do
    { echo 'echo 1' && (bench histories "$seed" 10000); } >"$room/history"
    status=0
    (bench) <"$room/history" >"$room/printed" 2>"$room/said" || status=$?
    [ "$status" -le 1 ] || complain "histories $seed: the console ended with status $status"
    target/rust/release/trials played <"$room/printed" >"$room/trials"
    head -n 1000 "$room/trials" >"$room/in"
    both "trials of histories $seed 10000"
    own=$(sed -n '1s/^trials //p' "$room/report")
    [ "$own" = "$(wc -l <"$room/in")" ] || complain "histories $seed: the report has '$own' trials of $(wc -l <"$room/in")"
    played=$((played + ${own:-0}))
done
[ "$played" -ge 300 ] || complain "only $played acquisitions were played"

# ---- the acceptance run
bash bench/acceptance.sh >"$room/report" || complain "bench/acceptance.sh ended with status $?"
cmp -s bench/acceptance.report "$room/report" || {
    complain "bench/acceptance.sh: not as expected"
    show_difference bench/acceptance.report "$room/report"
}

# ---- the names: what the report prints is proved to be the definition of crate `model`
for number in $(seq 1 16); do echo "1 $number"; done >"$room/in"
both "all refusals"
sed -n 's/^\([0-9]*\) \([A-Za-z]*\) 1$/\1 \2/p' "$room/report" >"$room/names"
[ "$(wc -l <"$room/names")" = 16 ] || complain "the report does not print sixteen names"

# named WHO: $room/own, lines of number and name, has document 01's fifteen and L8's, and no other than the report's
named() {
    sort -n -u "$room/own" -o "$room/own"
    [ "$(head -n 16 "$room/own" | cut -d ' ' -f 1 | tr '\n' ' ')" = "$(seq -s ' ' 1 16) " ] || complain "$1 does not have the numbers 1 to 16"
    grep -v -x -F -f "$room/names" "$room/own" >"$room/other" || return 0
    complain "$1 has other names: $(tr '\n' ',' <"$room/other")"
}
sed -n '/^enum skid_refusal/,/^};/s/^ *SKID_\([A-Z_]*\) = \([0-9]*\).*/\2 \1/p' include/skid.h | awk '{
    name = ""
    n = split($2, words, "_")
    for (i = 1; i <= n; i++) name = name substr(words[i], 1, 1) tolower(substr(words[i], 2))
    print $1, name
}' >"$room/own"
named "include/skid.h"
sed -n 's/^ *Refusal::\([A-Za-z]*\)\((_)\)\{0,1\} => \([0-9]*\),$/\3 \1/p' rust/skid/src/lib.rs >"$room/own"
named "rust/skid"
for input in bench/cases.txt bench/refusals.txt; do (bench "$input"); done | sed -n 's/^refused \([0-9]*\) \([A-Za-z]*\) .*/\1 \2/p' >"$room/own"
named "the console"

if [ "$wrong" -gt 0 ]; then
    echo "report: $wrong not as expected"
    exit 1
fi
echo "report: $cases inputs equal to the plain program's, $played played acquisitions among them; names as in header, rust/skid and console"
