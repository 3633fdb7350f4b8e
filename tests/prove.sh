#!/usr/bin/env bash
# prove.sh ci: does `rt ci` at the top, the gate's proof of everything. It fails where rt fails, and where a must-fail edit is bad, which
# rt only remarks: an edit that cannot be tried shows nothing. rt's last line stays last.
# prove.sh lib NAME, prove.sh run NAME: does `rt lib` or `rt run` in crates/NAME, for the static library (as code for every x86-64
# processor) or the program in crates/NAME/out. The program is run on no input, and what it prints is dropped.
# It prints one line for each crate, with the seconds since it began and how many of how many, and one for each edit that must fail. What
# the checker remarks beside it goes to a log, whose place is said if something fails.
set -euo pipefail
cd "$(dirname "$0")/.."
. tests/lib.sh

verb=${1:-} name=${2:-}
case $verb:$name in
    ci:) ;;
    lib:?* | run:?*) [ -d "crates/$name" ] || { echo "prove.sh: there is no crates/$name" >&2; exit 2; } ;;
    *) echo "usage: bash tests/prove.sh ci | lib NAME | run NAME" >&2; exit 2 ;;
esac

does() {
    case $verb in
        ci) rt ci 2>&1 ;;
        lib) cd "crates/$name" && rt lib --cpu x86-64 2>&1 ;;
        run) cd "crates/$name" && rm -f "out/$name" && { rt run </dev/null 2>&1 >/dev/null || true; } && [ -x "out/$name" ] ;;
    esac
}

crates=$(crates_of $name | wc -l)
edits=$(find crates -name out -prune -o -path '*/must-fail/*.edit' -print | wc -l)
log=$(mktemp)
last=$(mktemp)
trap 'rm -f "$last"' EXIT
status=0
does | tee "$log" | awk -v verb="$verb" -v crates="$crates" -v edits="$edits" -v last="$last" -v start="$(date +%s)" '
    function line(text) { print text; fflush() }
    function seconds(   now) { "date +%s" | getline now; close("date +%s"); return now - start " s" }
    verb != "ci" && /^crate [a-z0-9_]+: / { crate = $2; sub(/:$/, "", crate); next }
    verb != "ci" && /^logic=proved / { line("proved " ++n " of " crates ": " crate ", " seconds()); next }
    verb != "ci" && /^logic=/ { line("NOT PROVED: " crate); next }
    /^rt: ok[;,]/ || /^rt: FAILED:/ || /^[0-9]+ passed, [0-9]+ failed/ { print >last; next }
    /^rt: [a-z0-9_]+ proved$/ { line("proved " ++n " of " crates ": " $2 ", " seconds()); next }
    /^rt: [a-z0-9_]+ is kept: / { line("kept " ++n " of " crates ": " $2); next }
    /^rt: [a-z0-9_]+: its tests are proved$/ { crate = $2; sub(/:$/, "", crate); line("proved the tests of " crate ", " seconds()); next }
    /^rt: [a-z0-9_]+ NOT PROVED/ { ++n }
    /^rt: must-fail .*: refused, as it must be/ {
        label = $3
        sub(/(\.edit)?:$/, "", label)
        only = match($0, /\(only [^,;:]*/) ? ", " substr($0, RSTART + 1, RLENGTH - 1) : ""
        line("refused " ++m " of " edits " edits: " label only)
        next
    }
    /^rt: (chose --jobs|rt (check|lemma|tidy)|[a-z0-9_]+: begins with what) / { next }
    /^rt: / { line($0) }' || status=$?

if [ "$verb" = ci ] && [ "$status" -eq 0 ]; then
    [ "$(grep -c '^rt: ok[;,]' "$log")" = 1 ] && tail -n 1 "$log" | grep -qxE '[0-9]+ passed, 0 failed' || status=1
fi
[ "$status" -eq 0 ] || echo "what the checker said is in $log"
cat "$last"
if [ "$verb" = ci ] && bad=$(grep '^rt: ok[;,]' "$log" | grep -oE ', [0-9]+ bad' | grep -oE '[1-9][0-9]*'); then
    echo "$bad must-fail edits are bad (what the checker said is in $log): mend them"
    exit 1
fi
[ "$status" -ne 0 ] || rm -f "$log"
exit "$status"
