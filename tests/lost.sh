#!/usr/bin/env bash
# Input and output that are lost, of the program `report` (document 02, L12), of the plain program of that name and of bench/acceptance.sh:
# a directory as input, an input that breaks in the middle, a full device, a closed output, a pipe that nobody reads. Nothing is printed
# of lost input, and each says what was lost; the plain program and the script end with status 2, and `report`, which is a program of
# Rattle and has no status of its own, with 0. Ends with 1 if anything is not as expected.
set -euo pipefail
cd "$(dirname "$0")/.."
. tests/lib.sh
trap '' PIPE

build_plain
[ -e crates/report/out/report ] || {
    echo "no report at crates/report/out/report: build it first"
    exit 1
}
room=$(mktemp -d)
trap 'rm -rf "$room"' EXIT
printf '1 0\n5 0\n4096 11\n' >"$room/in"
mkfifo "$room/pipe"
wrong=0
cases=0

# proved, plain, script: the three, on this standard input
proved() { program report; }
plain() { target/rust/release/report; }
script() { bash bench/acceptance.sh; }
# broken WHO: on the bytes of $room/in and a failure behind them
broken() {
    case $1 in
        proved) target/rust/release/broken bash -c '. tests/lib.sh && program report' <"$room/in" ;;
        plain) target/rust/release/broken target/rust/release/report <"$room/in" ;;
    esac
}

# judge NAME LOST WANTED STATUS: nothing was printed to $room/out, $room/said says what was lost, and the status is the wanted one
judge() {
    cases=$((cases + 1))
    [ "$4" = "$3" ] && [ ! -s "$room/out" ] && [ "$(tail -n 1 "$room/said")" = "$2 lost" ] && return
    echo "$1: status $4, printed '$(head -c 100 "$room/out")', said '$(head -c 300 "$room/said")'; expected status $3, '$2 lost'"
    wrong=$((wrong + 1))
}

# output_lost WHO WANTED: the output of one of the three is lost
output_lost() {
    local status
    : >"$room/out"
    status=0 && "$1" <"$room/in" >/dev/full 2>"$room/said" || status=$?
    judge "$1, a full device" 'report: output' "$2" "$status"
    # a pipe whose only reader is gone before anything is written
    exec 8<>"$room/pipe" 9>"$room/pipe" 8<&-
    status=0 && "$1" <"$room/in" >&9 2>"$room/said" || status=$?
    exec 9>&-
    judge "$1, a pipe that nobody reads" 'report: output' "$2" "$status"
}

# input_lost WHO WANTED: the input of one of the two programs is lost
input_lost() {
    local status=0
    "$1" </ >"$room/out" 2>"$room/said" || status=$?
    judge "$1, a directory" 'report: input' "$2" "$status"
    status=0 && broken "$1" >"$room/out" 2>"$room/said" || status=$?
    judge "$1, an input that breaks" 'report: input' "$2" "$status"
}

input_lost proved 0
input_lost plain 2
output_lost proved 0
output_lost plain 2
output_lost script 2
# a program of Rust finds a null device where its output was closed, so this one is not asked
: >"$room/out"
status=0 && proved <"$room/in" >&- 2>"$room/said" || status=$?
judge "proved, a closed output" 'report: output' 0 "$status"
status=0 && script >&- 2>"$room/said" || status=$?
judge "script, a closed output" 'report: output' 2 "$status"
# what plays the file says in its own words that a directory is none
status=0 && bash bench/acceptance.sh / >"$room/out" 2>"$room/said" || status=$?
cases=$((cases + 1))
if [ "$status" != 2 ] || [ -s "$room/out" ] || [ ! -s "$room/said" ]; then
    echo "script, a directory: status $status, printed '$(head -c 100 "$room/out")'; expected status 2 and nothing but a message"
    wrong=$((wrong + 1))
fi
# and nothing is lost where nothing is
proved <"$room/in" >"$room/out" 2>"$room/said"
[ "$(head -n 1 "$room/out")" = 'trials 3' ] && [ ! -s "$room/said" ] || { echo "a good input: not as expected" && wrong=$((wrong + 1)); }

if [ "$wrong" -gt 0 ]; then
    echo "lost: $wrong not as expected"
    exit 1
fi
echo "lost: input and output lost in $cases ways, each said"
