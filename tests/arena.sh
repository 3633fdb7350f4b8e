#!/usr/bin/env bash
# include/skid_arena.h: clean in C99, C11, C17 and C++17 by gcc and clang, hosted and for a kernel without SSE registers and red zone, where
# a pressure arrives bit for bit; a governor, a panel and a logger through it over cold RAM of ten seeds, each figure checked; README's two
# examples. The archive is that of crates/skid/out. On x86-64 this program and those of tests/library.sh run under the address and
# undefined-behaviour sanitizers too, which see the programs and what the library gives to memcpy and memset, and under valgrind, where
# it is at hand, which sees the library's own code. Elsewhere an emulator runs them, under which the first does not work; of the second
# only its traps are used.
set -euo pipefail
cd "$(dirname "$0")/.."
# shellcheck source=tests/lib.sh
. tests/lib.sh
# shellcheck source=tests/compilers.sh
. tests/compilers.sh
need_compilers
archive=crates/skid/out/libskid.a
out=target/arena
mkdir -p "$out"

fail() {
    echo "arena: $*" >&2
    exit 1
}
[ -e "$archive" ] || fail "no $archive: rt lib --cpu x86-64 in crates/skid makes it"

# passes NAME SOURCE LAST FLAGS..: tests/c/SOURCE.c made with these flags (the compiler first) prints this last line
passes() {
    local name=$1 source=$2 last=$3
    shift 3
    "$@" "tests/c/$source.c" -x none "$archive" -o "$out/$name" || fail "$name is not clean"
    "${run[@]}" "$out/$name" >"$out/$name.out" || { cat "$out/$name.out"; fail "$name failed"; }
    grep -qE "$last" "$out/$name.out" || { cat "$out/$name.out"; fail "$name: the last line is another"; }
    echo "$name: $(tail -n 1 "$out/$name.out")"
}

# ---- clean everywhere, with the same figures
cat >"$out/kernel.c" <<'C'
#include "skid_arena.h"
SKID_MEMORY(plant_memory, headers(3), buckets(4));
static struct plant_memory memory;
SKID_ARENA(plant, memory, registry(0, 1, 2));
SKID_REPORT(report, memory);
SKID_BOOK_MEMORY(book_memory, slots(12));
static struct book_memory pages;
SKID_BOOK(book, pages);
#ifdef __cplusplus
extern "C"
#endif
int turn(uint32_t bits, uint32_t *back);
/* 0 if each call is done; and the pressure of cell 6 as it is read back. */
int turn(uint32_t bits, uint32_t *back)
{
    const struct skid_key key = {1, 2};
    struct skid_lease lease;
    struct skid_written written;
    struct skid_setting setting;
    int codes = skid_open(&plant, 1).code | skid_book_open(&plant, &book).code | skid_take(&plant, key, &lease).code;
    codes |= skid_set_pressure_bits(&plant, &book, lease, bits, &written).code;
    codes |= skid_book_read(&plant, &book, lease.cell, &setting).code | skid_mend(&plant, plant.head, &report).code;
    *back = setting.bits;
    return codes | skid_give(&plant, lease).code;
}
C
cat >"$out/host.c" <<'C'
#include <stdint.h>
int turn(uint32_t bits, uint32_t *back);
int main(void)
{
    uint32_t back = 0;
    return turn(0x3fc00000u, &back) == 0 && back == 0x3fc00000u ? 0 : 1;
}
C
done='^arena in C: [0-9]{6} figures of ten seeds, all as they should be$'
number=0
while read -r dialect; do
    number=$((number + 1))
    # shellcheck disable=SC2086
    passes "arena-$number" arena "$done" $dialect -O2 $strict
    # shellcheck disable=SC2086
    $dialect $strict $kernel -O2 -c "$out/kernel.c" -o "$out/kernel.o" || fail "$dialect: not clean for a kernel"
    $gcc "$out/host.c" "$out/kernel.o" "$archive" -o "$out/kernel"
    "${run[@]}" "$out/kernel" || fail "$dialect: without SSE registers the pressure is another"
done < <(dialects)
[ "$(cat "$out"/arena-?.out | sort -u | wc -l)" = 1 ] || fail "two dialects count other figures"

# ---- under the sanitizers
cat >"$out/slips.c" <<'C'
#include <stdint.h>
#include <stdlib.h>
#include <string.h>
/* A byte behind a buffer is written, or a sum is too large. */
int main(int count, char **words)
{
    char *buffer = malloc((size_t)count);
    if (strcmp(words[1], "address") == 0)
        buffer[count] = 1;
    else
        count += INT32_MAX;
    return buffer[0] == count;
}
C
# seen WHAT COMPILER..: the sanitizers stop such a slip, or they would show nothing below
seen() {
    "${@:2}" "$out/slips.c" -o "$out/slips"
    ! "${run[@]}" "$out/slips" "$1" >/dev/null 2>&1 || fail "${*:2}: $1 is not seen"
}
for cc in "$gcc" "$clang"; do
    name=${cc%% *}
    if [ "$(uname -m)" = x86_64 ]; then
        sanitized=($cc -O1 -g -fsanitize=address,undefined -fno-sanitize-recover=all)
        seen address "${sanitized[@]}"
    elif [ "$cc" = "$clang" ]; then
        sanitized=($cc -O1 -g -fsanitize=undefined -fsanitize-trap=undefined)
    else
        sanitized=($cc -O1 -g -fsanitize=undefined -fsanitize-undefined-trap-on-error)
    fi
    seen undefined "${sanitized[@]}"
    # shellcheck disable=SC2086
    passes "sanitized-arena-$name" arena "$done" "${sanitized[@]}" -std=c11 $strict
    passes "sanitized-bench-$name" bench '^bench cases in C: 16 passed$' "${sanitized[@]}" -std=c99 -Iinclude
    passes "sanitized-wave-$name" wave '^waveform in C: passed$' "${sanitized[@]}" -std=c99 -Iinclude
done
if [ "$(uname -m)" = x86_64 ] && command -v valgrind >/dev/null; then
    valgrind -q --error-exitcode=1 "$out/arena-3" >"$out/valgrind" 2>&1 || { cat "$out/valgrind"; fail "valgrind complains"; }
    echo "valgrind: no complaint"
fi

# ---- README's examples
# block LANGUAGE: the first block of README.md in it
block() { awk -v fence="\`\`\`$1" '$0 == "```" && inside { exit } inside { print } $0 == fence { inside = 1 }' README.md; }
block c >"$out/readme.c"
# shellcheck disable=SC2086
$gcc -std=c99 $strict "$out/readme.c" "$archive" -o "$out/readme_c"
[ "$("${run[@]}" "$out/readme_c")" = 'the valve is ours' ] || fail "README's C example says something else"
rustc=(rustc -D warnings)
[ "$(uname -m)" = x86_64 ] || rustc=(/usr/bin/rustc -D warnings --target x86_64-unknown-linux-gnu -C linker=x86_64-linux-gnu-gcc)
{ echo 'fn main() {'; block rust; echo 'println!("{:?}", arena.head()); }'; } >"$out/readme.rs"
CARGO_PKG_VERSION=$(sed -n 's/^version = "\(.*\)"$/\1/p' rust/skid/Cargo.toml)
export CARGO_PKG_VERSION
"${rustc[@]}" --edition 2021 -O --crate-type rlib --crate-name skid rust/skid/src/lib.rs \
    -L native=crates/skid/out -l static=skid -o "$out/libskid.rlib"
"${rustc[@]}" --edition 2021 -O "$out/readme.rs" --extern "skid=$out/libskid.rlib" -L native=crates/skid/out -o "$out/readme_rust"
[ "$("${run[@]}" "$out/readme_rust")" = 'Head { headers: 2, buckets: 4, next: 2, boot: 5 }' ] || fail "README's Rust example granted nothing"
echo "README's examples in C and Rust: as they say"
