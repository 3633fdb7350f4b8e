#!/usr/bin/env bash
# Which crate may name which (CONTRIBUTING.md), held to crates.txt. The crates of code have functions that ask something of their callers
# (`requires`); only the crates listed here may name them, so a reader knows where every such call is. Exported calls ask nothing: C and
# Rust callers prove nothing. And no source line has over 120 columns. Ends with 1 and says what is wrong.
set -euo pipefail
cd "$(dirname "$0")/.."

base='choice types model laws setpoint book_rules'
theory='history history_exact crew_theory sorted_theory crew_at_work_theory upstream pinned wrong_builds swaps book_theory salvage_theory boot_theory book_pinned'
parts='arena lease foreign lock bucket release multilock sorted_merge sorted crew_plan crew crew_at_work book_sound book_compact book_enter book salvage'
callers="$parts records skid" # the calls themselves, and the faces that make them
exports=skid

wrong=0
complain() {
    echo "$1"
    wrong=1
}
# among NAME LIST: whether it is one of them
among() {
    case " $2 " in *" $1 "*) ;; *) return 1 ;; esac
}

crates=0
while IFS=: read -r name needs; do
    name=${name% staticlib}
    crates=$((crates + 1))
    for needed in $needs; do
        if among "$name" "$base $theory"; then
            among "$needed" "$base $theory" || complain "$name names $needed: theory names theory and the base: $base"
        elif among "$name" "$parts"; then
            among "$needed" "$base $parts" || complain "$name names $needed: the calls name calls and the base: $base"
        else
            ! among "$needed" "$theory" || complain "$name names $needed: a face names no theory"
        fi
        ! among "$needed" "$parts" || among "$name" "$callers" || complain "$name names $needed, whose parts ask something of their callers"
    done
done < <(grep -v '^#' crates.txt | grep .)

for name in $base $theory $callers; do
    grep -qE "^$name( staticlib)?:" crates.txt || complain "tests/layers.sh lists $name, which is no crate"
done
for file in crates/"$exports"/src/*.rt; do
    ! grep -Hn 'requires' "$file" || complain "$file: an exported call has no requires"
done
if LC_ALL=C.UTF-8 grep -nE '^.{121}' crates/*/src/*.rt; then
    complain "a source line has over 120 columns"
fi

[ "$wrong" -ne 0 ] || echo "layers: $crates crates; parts with a requires are named by $(wc -w <<<"$callers") of them, exported calls have none"
exit "$wrong"
