#!/usr/bin/env bash
# Random histories through the proved library and the plain build: after each call every word of the reply and of every lent run is
# compared. `compare.sh [CALLS [SEED]]`: at least CALLS calls, in histories of 10,000 with the seeds SEED, SEED + 1, ..
# Each lent run stands up against pages that may not be touched, so that a word beside it ends the process. On x86-64 `bench compare`
# does it, 1,000,000 calls if no number is given. On another machine the library runs under an emulator, which is slow: 5,000 calls
# are made so, and for the others this machine's own build writes the histories, which are piped into `bench --both --fenced`; it is
# 200,000 calls. Ends with 1 at the first difference.
set -euo pipefail
cd "$(dirname "$0")/.."
. tests/lib.sh

native=$([ "$(uname -m)" != x86_64 ] || echo yes)
calls=${1:-${native:+1000000}}
calls=${calls:-200000}
seed=${2:-20261115}
case $calls/$seed in
    *[!0-9/]* | 0/* | /* | */)
        echo "usage: compare.sh [CALLS [SEED]]"
        exit 2
        ;;
esac

build_bench
room=$(mktemp -d)
trap 'rm -rf "$room"' EXIT

# one_process CALLS SEED: `bench compare`, fenced; the number that it says is at least CALLS
one_process() {
    local played
    (bench compare --calls "$1" --seed "$2" --fenced) | tee "$room/said" || exit 1
    played=$(sed -n 's/^compare: \([0-9]*\) calls.*/\1/p' "$room/said")
    [ "${played:-0}" -ge "$1" ] || {
        echo "seed $2: '${played}' calls were compared, not $1"
        exit 1
    }
}

if [ -n "$native" ]; then
    one_process "$calls" "$seed"
    exit 0
fi

# a call prints one line with its counts, but for the crew's, the salvage's and the book's
calls_in() {
    grep -a -c -E ' place [0-9]+ attempts [0-9]+ boundaries [0-9]+ |^crew moving |^refused [0-9]+ [A-Za-z]+ [0-9]+( next [0-9]+)?$|^done [0-9]+ [0-9]+ next |^done( version [0-9]+ moved [0-9]+)?$|^refused [A-Za-z]+( next [0-9]+)?$|^setpoint ' "$1" || true
}

one_process $((calls < 5000 ? calls : 5000)) "$seed"
cargo build --release --offline --quiet --manifest-path rust/Cargo.toml -p bench --no-default-features --target-dir target/rust
each=$((calls < 10000 ? calls : 10000)) first=$seed played=0 lines=0
while [ "$played" -lt "$calls" ]; do
    status=0
    target/rust/release/bench histories "$seed" "$each" | (bench --both --fenced) >"$room/out" 2>"$room/said" || status=$?
    # 1: some lines were not understood, as a history has them
    if [ "$status" -gt 1 ]; then
        echo "seed $seed: status $status (bench histories $seed $each | bench --both --fenced)"
        sed 's/^/  /' "$room/said"
        # the same history with the lines before the difference
        (bench compare --calls "$each" --seed "$seed" --fenced) || true
        exit 1
    fi
    own=$(calls_in "$room/out")
    [ "$own" -ge "$each" ] || {
        echo "seed $seed: only $own calls were played, not $each"
        exit 1
    }
    echo "seed $seed: $own calls, equal"
    played=$((played + own))
    lines=$((lines + $(wc -l <"$room/out")))
    seed=$((seed + 1))
done
echo "compare: $played calls, $lines lines, equal; seeds $first to $((seed - 1))"
