#!/usr/bin/env bash
# demo/: the kernel that boots with the library. The story of seed 1 is demo/story-1.txt, line by line; a third boot on the same paper, one
# with a damaged copy of the boot number, one with both damaged; the waveforms, in GTKWave's own reader, have the takes and releases of the
# story; many seeds, each with all its counts right; the lock that believes memory: its first seeds with two writers, from the cold start
# and after the dip, and none where memory is clean and power steady. Then it tries itself: kernels with a slip, which must be noticed.
# SEEDS says how many seeds, 40 if nothing does.
set -euo pipefail
cd "$(dirname "$0")/.."
# shellcheck source=tests/lib.sh
. tests/lib.sh
out=target/demo
room=$(mktemp -d)
trap 'rm -rf "$room"' EXIT

fail() {
    echo "demo: $*" >&2
    exit 1
}
if ! command -v vcd2fst >/dev/null || ! command -v fst2vcd >/dev/null; then install_packages gtkwave; fi
[ -e crates/skid/out/libskid.a ] || fail "no crates/skid/out/libskid.a: rt lib --cpu x86-64 in crates/skid makes it"

# ends WANTED NAME WORDS..: demo/run.sh with these words ends so; what it prints is in $room/said
ends() {
    local wanted=$1 name=$2 got=0
    shift 2
    bash demo/run.sh "$@" >"$room/said" || got=$?
    [ "$got" = "$wanted" ] || { tail -n 5 "$room/said"; fail "$name: status $got, not $wanted"; }
}
# says NAME SENTENCE: a line of it
says() { grep -qF -- "$2" "$room/said" || { tail -n 5 "$room/said"; fail "$1: it does not say: $2"; }; }

# ---- seed 1, to the byte
ends 0 'seed 1' 1
cmp -s demo/story-1.txt "$room/said" || { show_difference demo/story-1.txt "$room/said"; fail 'seed 1 tells another story'; }

# ---- its waveforms in the viewer: `TIME CELL BIT` of each change
changes() {
    (cd "$out" && vcd2fst "$1.vcd" "$room/wave.fst" >/dev/null && fst2vcd "$room/wave.fst") | awk '
        $1 == "$var" { name[$4] = $5; next } /^#/ { time = substr($0, 2) + 0; next }
        /^[01]./ && time > 0 { print time, name[substr($0, 2)], substr($0, 1, 1) }'
}
changes boot-1 >"$room/first"
[ "$(awk '{ bit[$2] = $3 } END { for (c in bit) n += bit[c]; print n }' "$room/first")" = \
    "$(sed -n 's/^  Cells held .*): \([0-9]*\), should.*/\1/p' "$out/story.txt" | head -n 1)" ] ||
    fail 'the first waveform does not end with the cells that are held when the power is cut'
changes boot-2 | awk '{ n[$2 " " $3]++ } END { for (c in n) print c, n[c] }' | sort >"$room/seen"
sed '1,/The power is cut/d' "$out/story.txt" | awk '
    BEGIN { split("main pump,spare pump,fan,chart drive,inlet valve,outlet valve,bypass valve,drain valve", unit, ",")
            for (i in unit) cell["the " unit[i]] = "c" i - 1 }
    match($0, / takes the [a-z ]+ \(serial/) { n[cell[substr($0, RSTART + 7, RLENGTH - 15)] " 1"]++ }
    match($0, / releases the [a-z ]+\.$/) { n[cell[substr($0, RSTART + 10, RLENGTH - 11)] " 0"]++ }
    END { for (c in n) print c, n[c] }' | sort >"$room/told"
cmp -s "$room/told" "$room/seen" || { diff "$room/told" "$room/seen" | head; fail 'the second waveform is not that of the story (< story, > viewer)'; }
edges=$(awk '{ n += $3 } END { print n }' "$room/seen")
[ "$edges" -ge 10 ] || fail "only $edges changes in the second waveform"

# ---- the boot number over restarts. damage PLACE: a byte of the paper
damage() { printf '\377' | dd of="$out/paper" bs=1 seek="$1" conv=notrunc status=none; }
ends 0 'a third boot' --again
says 'a third boot' 'The boot number on paper is raised to 3.'
says 'a third boot' 'of boot 1: refused by 16, the lease is from another boot.'
damage 10
ends 0 'a damaged copy' --again
says 'a damaged copy' 'Copy 0 of the boot number is not right.'
says 'a damaged copy' 'The boot number on paper is raised to 4.'
damage 10
damage 42
ends 4 'two damaged copies' --again
says 'two damaged copies' 'The kernel does not guess, and stops.'
echo "demo: seed 1 as stored, its waveforms in the viewer ($edges changes in the second), the boot number over four boots"

# ---- many seeds
ends 0 'many seeds' --many "${SEEDS:-40}"
cat "$room/said"

# ---- the lock that believes memory. first SEED WORDS..: the first with two writers on a valve, in at most ten lines
first() {
    local seed=$1 got=0
    shift
    bash demo/run.sh --believing "$@" --many "$seed" >"$room/said" || got=$?
    [ "$got $(grep 'TWO WRITERS.* valve' "$room/said" | sed 's/:.*//')" = "1 seed $seed" ] ||
        { cat "$room/said"; fail "the lock that believes memory ($*): seed $seed is not the first with two writers"; }
    ends 2 "the lock that believes memory ($*)" --believing "$@"
    says "seed $seed" 'Two writers on one valve.'
    [ "$(wc -l <"$room/said")" -le 10 ] || fail "seed $seed: more than ten lines"
    [ "$(grep -c ' sets the ' "$room/said")" -ge 2 ] || fail 'two writers, and not two that set'
}
first 10
says 'from the cold start' 'finds its name on'
awk '$0 == "```" && inside { exit } inside { print } $0 == "```out" { inside = 1 }' demo/README.md >"$room/page"
cmp -s "$room/page" "$room/said" || { show_difference "$room/page" "$room/said"; fail 'demo/README.md has other lines'; }
first 13 --clean
says 'after the dip' '-- The power dips'
ends 0 'the lock that believes memory, with nothing to believe' --believing --clean --steady --many 10
echo 'demo: the lock that believes memory has two writers first by seed 10, without rubbish by seed 13, without rubbish and dip by none of ten'

# ---- it tries itself. noticed STATUS SENTENCE FILE EDIT: a kernel with this slip ends so, and says so
slips=0
noticed() {
    rm -rf "$room/demo"
    cp -r demo "$room/demo"
    sed -i "$4" "$room/demo/$3"
    ! cmp -s "demo/$3" "$room/demo/$3" || fail "there is no such place in demo/$3: $4"
    DEMO_SOURCE=$room/demo ends "$1" "$3 with $4" 1
    grep -q -- "$2" "$room/said" || { tail -n 5 "$room/said"; fail "$3 with $4: it does not say $2"; }
    slips=$((slips + 1))
}
noticed 1 'Serials spent .*WRONG' kernel.c 's/grants++, //'
noticed 1 'Version of .*WRONG' kernel.c 's/written\[c\]++, //'
noticed 1 'Cells held .*WRONG' kernel.c 's/= skid_give(&plant, note/= skid_is_mine(\&plant, note/'
noticed 1 'earlier boot: none, WRONG' kernel.c 's/^    paper.boot++; .*/    if (is_new) paper.boot++;/'
noticed 1 'WRONG' kernel.c '/^static struct skid_result on_paper/,/^}/s/^    write_paper();//'
noticed 1 'SSE registers lost .*WRONG' machine.c '/fxrstor64/d'
noticed 1 'never used: none, WRONG' demo.h 's/STACK = 8192/STACK = 6144/'
# without its own stack the interrupt writes over what the library keeps below the stack pointer. What comes of it is for the compiler's
# code to say: with that of 0.18.2 the processor could not go on (status 3), with this one counts are wrong, and no tick is seen inside
# shellcheck disable=SC2016
noticed 1 'Ticks of the timer inside a call of the library: none, WRONG' boot.S 's/^    movl \$1, %edx$/    movl $0, %edx/'
noticed 1 'Ticks of the timer inside a call of the library: none, WRONG' machine.c 's/taken_inside += is_inside &&/taken_inside += is_inside \&\& f->rsp == 0 \&\&/'
rm -f "$out/library.elf"
echo "demo: $slips kernels with a slip, each noticed"
lines=$(cat demo/kernel.c demo/machine.c demo/demo.h | wc -l)
[ "$lines" -lt 600 ] || fail "$lines lines of C"
