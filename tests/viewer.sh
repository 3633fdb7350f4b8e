#!/usr/bin/env bash
# A dump in an independent viewer: GTKWave's own reader of value change dumps, without a screen. `vcd2fst` reads the
# dump into the viewer's format, and `fst2vcd` tells what the viewer holds then: its names and transitions must be those
# of the history. For document 02's example, random histories and the largest history; and for the day on the skid, as
# bench/wave.sh writes it, with the steps that the plain build tells. Then bench/wave.sh's status and messages.
# Ends with 1 if anything differs.
set -euo pipefail
cd "$(dirname "$0")/.."
. tests/lib.sh

if ! command -v vcd2fst >/dev/null || ! command -v fst2vcd >/dev/null; then
    apt-get update
    apt-get install -y --no-install-recommends gtkwave
fi
build_plain
build_bench
room=$(mktemp -d)
trap 'rm -rf "$room"' EXIT

# of_history: the first values and the transitions of a history: `TIME CELL BIT`, from document 02's sentence
of_history() {
    awk 'NR == 1 { n = $1; for (c = 0; c < n; c++) print 0, "c" c, 0; next }
        { bit = -1 } $1 == 1 { bit = 1 } $1 == 2 { bit = 0 }
        bit >= 0 && $2 < n && bits[$2] + 0 != bit { bits[$2] = bit; print NR - 1, "c" $2, bit }'
}

# of_viewer: the same of what the viewer holds. Its codes are its own; the names tell which cell it is.
of_viewer() {
    awk '$1 == "$var" { name[$4] = $5; next }
        /^#/ { time = substr($0, 2); next }
        /^[01]./ { print time, name[substr($0, 2)], substr($0, 1, 1) }'
}

viewed=0 seen=0
# view NAME: the history $room/history, through `bench dump`
view() {
    (bench dump) <"$room/history" >"$room/dump.vcd"
    case $(head -n 1 "$room/dump.vcd") in
        '$timescale'*) ;;
        *) return ;;
    esac
    compare "$1"
}

# compare NAME: the dump $room/dump.vcd in the viewer, with the history $room/history
compare() {
    (cd "$room" && vcd2fst dump.vcd dump.fst >vcd2fst.out 2>&1 && fst2vcd dump.fst >seen.vcd) || {
        echo "$1: the viewer does not read the dump"
        cat "$room/vcd2fst.out"
        exit 1
    }
    of_history <"$room/history" | sort -k1,1n -k2,2 >"$room/wanted"
    of_viewer <"$room/seen.vcd" | sort -k1,1n -k2,2 >"$room/seen"
    if ! cmp -s "$room/wanted" "$room/seen"; then
        echo "$1: the viewer shows something else (< history, > viewer)"
        diff "$room/wanted" "$room/seen" | head
        exit 1
    fi
    viewed=$((viewed + 1))
    seen=$((seen + $(wc -l <"$room/seen")))
}

printf '2\n1 0 7\n' >"$room/history"
view 'the example'
target/rust/release/waves largest 20261115 >"$room/history"
view 'the largest history'
for ((i = 0; i < 40; i++)); do
    target/rust/release/waves history $((20261115 + i)) >"$room/history"
    view "history $((20261115 + i))"
done
{ echo 'trace 1'; cat bench/skid-day.txt; } >"$room/day"
{ echo 12; (bench --plain "$room/day") 2>/dev/null | sed -n 's/^step //p'; } >"$room/history"
bash bench/wave.sh bench/skid-day.txt 12 >"$room/dump.vcd" || { echo "bench/wave.sh ended with status $?"; exit 1; }
compare 'the day on the skid'
[ "$(wc -l <"$room/seen")" -ge 40 ] || { echo "the day on the skid has only $(wc -l <"$room/seen") values"; exit 1; }
[ "$viewed" -gt 10 ] || { echo "only $viewed dumps were viewed"; exit 1; }

# ---- bench/wave.sh

# status WANTED WORDS..: bench/wave.sh with these words ends so; with 2 it writes nothing and says why
status() {
    local wanted=$1 got=0
    shift
    bash bench/wave.sh "$@" >"$room/out" 2>"$room/said" || got=$?
    [ "$got" = "$wanted" ] || { echo "bench/wave.sh $*: status $got, not $wanted"; exit 1; }
    [ "$got" != 2 ] || { [ ! -s "$room/out" ] && grep -q '^wave.sh: ' "$room/said"; } || {
        echo "bench/wave.sh $*: status 2, and it wrote something or did not say why"
        exit 1
    }
}

status 0 --help
status 2
status 2 bench/skid-day.txt
status 2 --cells 2
status 2 "$room/none" 2
status 2 "$room" 2
for cells in 0 95 02 -1 x ''; do status 2 bench/skid-day.txt "$cells"; done
# a line that is not understood, and a last line without its line feed; step 3 is the take
printf 'prepare 1 2 1 7\nx\ntry_acquire 1' >"$room/cases"
status 1 "$room/cases" 2
[ "$(tail -n 2 "$room/out")" = $'#3\n1"' ] || { echo 'bench/wave.sh: not the take of cell 1 at step 3'; exit 1; }
awk 'BEGIN { for (i = 0; i < 32768; i++) print "environment" }' >"$room/cases"
status 0 "$room/cases" 1
echo environment >>"$room/cases"
status 2 "$room/cases" 1
echo "viewer: $viewed dumps, $seen values and transitions, as in the histories"
