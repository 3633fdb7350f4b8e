#!/usr/bin/env bash
# run.sh [WORDS] [SEED]: boots the skid in a box and prints its story. run.sh --help says the rest.
set -euo pipefail

usage() {
    cat <<'TEXT'
usage: bash demo/run.sh [--believing] [--clean] [--steady] [SEED]
       bash demo/run.sh [--believing] [--clean] [--steady] --many N
       bash demo/run.sh --again

Builds a small kernel with the library, boots it twice on an emulated x86-64 machine, with a power cut in between, and
prints the story that it tells. SEED is a number, 1 if there is none; the same seed tells the same story.

    --believing   the same kernel with a lock that believes memory, on the first seed by which two tasks set one valve;
                  with a seed, on that one. Only the last lines about that valve are printed
    --clean       the memory is clean when power comes; only the first boot
    --steady      no power dip; only the first boot
    --many N      seeds 1 to N; prints how they ended
    --again       one more boot of the kernel with the library, on the paper that the last run left

target/demo has the whole story, story.txt, and the waveforms of the cells, boot-1.vcd and boot-2.vcd; with --believing they
are in target/demo/believing. The library is that of crates/skid/out; the first time, and when a source has changed, it is proved
and built, which takes some minutes. The environment variable SKID_LIB_DIR names another folder that has libskid.a.

status: 0 all as it should be; 1 a count is wrong; 2 two writers on one valve; 3 no such end, or a word that is not
understood; 4 the boot number is not known. With --many: 0 if all seeds ended with 0, else 1.
TEXT
}

lock=library without='' many=0 again=no seed=''
while [ $# -gt 0 ]; do
    case $1 in
        --help | -h) usage; exit 0 ;;
        --believing) lock=believing ;;
        --clean) without+=c ;;
        --steady) without+=s ;;
        --many) many=${2:-x}; [ $# -eq 1 ] || shift ;;
        --again) again=yes ;;
        *) seed=$1 ;;
    esac
    shift
done
case $many$seed in *[!0-9]*) usage >&2; exit 3 ;; esac
# The first seeds by which the lock that believes memory has two writers on one valve; tests/demo.sh looks for them anew.
case $lock$without in
    believing) first=10 ;;
    believingc) first=13 ;;
    *) first=1 ;;
esac
seed=${seed:-$first}

library=${SKID_LIB_DIR:+$(realpath -- "$SKID_LIB_DIR")/libskid.a}
cd "$(dirname "$0")/.."
. tests/lib.sh
out=target/demo
mkdir -p "$out"
[ -n "$library" ] || build_library >&2
library=${library:-crates/skid/out/libskid.a}
need_cross >&2
cc=gcc
[ "$(uname -m)" = x86_64 ] || cc=x86_64-linux-gnu-gcc
command -v "$cc" >/dev/null || install_packages gcc >&2
command -v qemu-system-x86_64 >/dev/null || install_packages qemu-system-x86 >&2

# As kernels are compiled: no host, no red zone, no SSE in its own code. DEMO_SOURCE is for tests/demo.sh: another folder of sources.
build() {
    local source=${DEMO_SOURCE:-demo} define=()
    [ "$lock" = library ] || define=(-DBELIEVING)
    "$cc" -std=c11 -O2 -Wall -Wextra -Werror -ffreestanding -mno-red-zone -mgeneral-regs-only -fno-pic -no-pie \
        -fno-stack-protector -fcf-protection=none -fno-asynchronous-unwind-tables -fno-strict-aliasing -nostdlib -static \
        "${define[@]}" -Iinclude -T "$source/link.ld" -Wl,--build-id=none -Wl,-z,noexecstack -Wl,-z,max-page-size=4096 \
        -o "$out/$lock.elf" "$source/boot.S" "$source/machine.c" "$source/kernel.c" "$library"
}

# boot FOLDER NUMBER LINE: one boot with this command line. Its story comes behind that of the boots before it. Time in the machine is
# counted in instructions (-icount), 32 ns each, so that a busy host does not change when the timer ticks. The paper is a memory with
# a battery, 2 MiB at 4 GiB, kept in a file.
boot() {
    local status=0
    timeout 20 qemu-system-x86_64 -M pc,nvdimm=on -m 16M,slots=1,maxmem=1G -nodefaults -no-user-config -display none -no-reboot \
        -accel tcg -icount shift=5,sleep=off -device isa-debug-exit,iobase=0xf4,iosize=4 \
        -object "memory-backend-file,id=paper,share=on,mem-path=$1/paper,size=2M" -device nvdimm,memdev=paper,addr=0x100000000 \
        -serial "file:$1/boot.txt" -serial "file:$1/boot-$2.vcd" -kernel "$out/$lock.elf" -append "$3" </dev/null || status=$?
    cat "$1/boot.txt" >>"$1/story.txt"
    case $status in
        33) return 0 ;;
        35) return 1 ;;
        37) return 2 ;;
        41) return 20 ;; # the power was cut
        43) return 4 ;;
        *) echo "no end: the machine ended with $status" >&2; return 3 ;;
    esac
}

# play FOLDER SEED: a new skid, and a second boot when the power has been cut
play() {
    local status=0
    mkdir -p "$1"
    rm -f "$1"/paper "$1"/*.txt "$1"/*.vcd
    truncate -s 2M "$1/paper"
    boot "$1" 1 "$2 n$without" || status=$?
    [ "$status" = 20 ] || return "$status"
    [ -z "$without" ] || return 0
    boot "$1" 2 "$2"
}

# how_many N: seeds 1 to N, as many at a time as there are processors
how_many() {
    local s status ended=(0 0 0 0 0) first=0 after=0 second=0 folder=$out/many
    rm -rf "$folder"
    for ((s = 1; s <= $1; s++)); do
        { status=0; play "$folder/$s" "$s" || status=$?; echo "$status" >"$folder/$s/status"; } &
        [ $((s % $(nproc))) != 0 ] || wait
    done
    wait
    for ((s = 1; s <= $1; s++)); do
        status=$(cat "$folder/$s/status")
        ended[status]=$((ended[status] + 1))
        [ "$status" = 0 ] || echo "seed $s: $(grep -m 1 -e '\*\*\* TWO' -e WRONG -e '\*\*\* A TRAP' "$folder/$s/story.txt" || echo 'no end')"
        [ "$status" = 2 ] || continue
        if grep -q 'The power is cut' "$folder/$s/story.txt"; then second=$((second + 1));
        elif grep -q 'The power dips' "$folder/$s/story.txt"; then after=$((after + 1));
        else first=$((first + 1)); fi
    done
    echo "$1 seeds: ${ended[0]} all as it should be, ${ended[1]} with a wrong count, ${ended[2]} with two writers on one valve" \
        "($first before the dip, $after after it, $second after the power cut), $((ended[3] + ended[4])) without an end"
    [ "${ended[0]}" = "$1" ]
}

build || { echo "run.sh: the kernel cannot be built" >&2; exit 3; }
if [ "$many" -gt 0 ]; then
    how_many "$many"
elif [ $again = yes ]; then
    rm -f "$out/story.txt"
    status=0
    boot "$out" 2 "$seed" || status=$?
    cat "$out/story.txt"
    exit "$status"
else
    status=0 folder=$out
    [ $lock = library ] || folder=$out/believing
    play "$folder" "$seed" || status=$?
    if [ $status = 2 ]; then
        cell=$(sed -n 's/.* both have \(.*\), and both have set it\.$/\1/p' "$folder/story.txt" | tail -n 1)
        grep -e "$cell" -e '^Seed' -e '^Power' -e 'are opened' -e 'dips' -e 'mended:' -e 'power is cut' -e '^Two' "$folder/story.txt" | tail -n 10
    else
        cat "$folder/story.txt"
    fi
    exit "$status"
fi
