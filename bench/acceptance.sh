#!/usr/bin/env bash
# acceptance.sh [FILE]: plays the case file of an acceptance run, bench/acceptance.txt if none is named, through the bench console, takes
# each acquisition by key as a trial, and prints the acceptance report of document 02. The file begins with `echo 1`, so that the
# output says which line a call was. The first time, and when a source has changed, it proves and builds what it runs.
# Ends with 2 if input or output was lost.
set -euo pipefail
file=$(realpath -- "${1:-$(dirname "$0")/acceptance.txt}")
cd "$(dirname "$0")/.."
. tests/lib.sh
build_bench >&2
if program_is_old report; then build_program report >&2; fi
build_plain
room=$(mktemp -d)
trap 'rm -rf "$room"' EXIT
trap '' PIPE
(bench "$file") | target/rust/release/trials played >"$room/trials"
# A program of Rattle has no exit status: `report` says on standard error that input or output was lost.
program report <"$room/trials" 2>"$room/said"
cat "$room/said" >&2
[ ! -s "$room/said" ] || exit 2
