#!/usr/bin/env bash
# wave.sh CASES N: plays a case file and writes the waveform of its first N cells. wave.sh --help says the rest.
set -euo pipefail

usage() {
    cat <<'TEXT'
usage: bash bench/wave.sh CASES N

Plays the lines of the case file CASES through the bench console, with `trace 1` before them, and writes the waveform
of the first N cells (1 to 94) to standard output: a value change dump (IEEE 1364), for a viewer such as GTKWave. A
call is one step for each bit that it changed, or one step if it changed none; a step is one nanosecond.

    bash bench/wave.sh bench/skid-day.txt 12 >skid-day.vcd
    gtkwave skid-day.vcd

The calls and the writer of the waveform are those of the proved library. The first time, and when a source has changed, it
is proved and built, which takes some minutes; a line is printed for each layer.

status: 0 all is well; 1 some lines were not understood, and the waveform is that of the others; 2 something was lost or
is missing (output, the file, `rt`), or there is no such waveform, and then nothing is written

docs/WAVE.md has more.
TEXT
}

fail() {
    echo "wave.sh: $*" >&2
    exit 2
}

case $#,${1:-} in
    1,-h | 1,--help)
        usage
        exit 0
        ;;
    2,-?*) fail "there is no option $1; --help says how to use it" ;;
    2,*)
        [ -e "$1" ] || fail "there is no file $1"
        [ ! -d "$1" ] || fail "$1 is a directory"
        [ -r "$1" ] || fail "$1 cannot be read"
        file=$(realpath -- "$1")
        cells=$2
        ;;
    *) fail "a case file and a number of cells; --help says how to use it" ;;
esac
case $cells in
    [1-9] | [1-8][0-9] | 9[0-4]) ;;
    *) fail "a waveform has 1 to 94 cells, not $cells" ;;
esac
cd "$(dirname "$0")/.."
. tests/lib.sh

room=$(mktemp -d)
trap 'rm -rf "$room"' EXIT
{ echo 'trace 1'; cat -- "$file"; } >"$room/lines"
status=0
bash bench/play.sh "$room/lines" >"$room/out" || status=$?
[ "$status" -le 1 ] || exit 2

LC_ALL=C sed -n 's/^step //p' "$room/out" >"$room/history"
steps=$(wc -l <"$room/history")
[ "$steps" -le 32768 ] || fail "the play has $steps steps, and a waveform has room for 32768"
(bench dump "$cells") <"$room/history" >"$room/dump" || fail "the writer of waveforms ended with status $?"
case $(head -n 1 "$room/dump") in
    '$timescale '*) ;;
    *) fail "no waveform: $(head -n 1 "$room/dump")" ;;
esac
cat "$room/dump" 2>/dev/null || fail "output lost"
exit "$status"
