#!/usr/bin/env bash
# Misuse of include/skid_arena.h that must not compile, each with the error that it must give, in C99, C11, C17 and C++17 by gcc and
# clang; the same program without the misuse compiles. And a program that was compiled against another interface than the archive's: it
# must not link, from C and from Rust. The archive is that of crates/skid/out.
set -euo pipefail
cd "$(dirname "$0")/.."
# shellcheck source=tests/lib.sh
. tests/lib.sh
# shellcheck source=tests/compilers.sh
. tests/compilers.sh
need_compilers
out=target/misuse
mkdir -p "$out"
tried=0

fail() {
    echo "misuse: $*" >&2
    exit 1
}

# What every snippet stands behind.
before='#include "skid_arena.h"
SKID_MEMORY(plant_memory, headers(3), buckets(4));
static struct plant_memory memory;
SKID_ARENA(plant, memory, registry(0, 1, 2));
SKID_BOOK_MEMORY(book_memory, slots(12));
static struct book_memory pages;
SKID_BOOK(book, pages);
extern struct skid_key keys[2];
extern struct skid_lease leases[2];
extern struct skid_written written;
extern struct skid_setting setting;
extern uint32_t words[6];
extern uint8_t bytes[624];
int used(void);
int used(void) { return (int)plant.bindings + (int)book.length; }
'

# refused WHAT ERROR CODE [FLAGS]: the code compiles in no dialect, and each compiler's message has ERROR, an extended regular expression.
refused() {
    local what=$1 error=$2 code=$3 flags=${4:-} dialect
    printf '%s%s\n' "$before" "$code" >"$out/snippet.c"
    while read -r dialect; do
        # shellcheck disable=SC2086
        if $dialect $strict $flags -fsyntax-only "$out/snippet.c" 2>"$out/said"; then
            fail "$what: $dialect compiles it"
        fi
        grep -qE "$error" "$out/said" || { cat "$out/said"; fail "$what: $dialect does not say '$error'"; }
    done < <(dialects)
    tried=$((tried + 1))
    echo "$what: refused"
}

# allowed CODE [FLAGS]: the control: without the misuse it compiles.
allowed() {
    local dialect
    printf '%s%s\n' "$before" "$1" >"$out/snippet.c"
    while read -r dialect; do
        # shellcheck disable=SC2086
        $dialect $strict ${2:-} -fsyntax-only "$out/snippet.c" || fail "$dialect does not compile what is right: $1"
    done < <(dialects)
}

call() { echo "struct skid_result call(void); struct skid_result call(void) { return $1; }"; }
allowed 'SKID_MEMORY(m, headers(64), buckets(64)); SKID_BOOK_MEMORY(b, slots(64));'
allowed 'static struct plant_memory more; SKID_ARENA(other, more, registry(0)); struct skid_arena *o(void); struct skid_arena *o(void) { return &other; }'
allowed "$(call 'skid_take_all(&plant, keys, 2, leases)')"
allowed "$(call 'skid_give_all(&plant, leases, 2)')"
allowed "$(call 'skid_give(&plant, leases[0])')"
allowed "$(call 'skid_set_pressure_bits(&plant, &book, leases[0], 0x3fc00000u, &written)')" "$kernel"
allowed "$(call 'skid_set_pressure(&plant, &book, leases[0], 1.5f, &written)')"

negative='negative|at most 4,096 cells'
refused 'headers and buckets exchanged' 'SKID_FIRST_buckets' 'SKID_MEMORY(m, buckets(4), headers(3));'
refused 'two numbers that do not say which they are' 'SKID_FIRST_3' 'SKID_MEMORY(m, 3, 4);'
refused '4,160 cells' "$negative" 'SKID_MEMORY(m, headers(64), buckets(65));'
refused '65 headers' "$negative" 'SKID_MEMORY(m, headers(65), buckets(1));'
refused 'no headers' "$negative" 'SKID_MEMORY(m, headers(0), buckets(4));'
refused '1,025 buckets' "$negative" 'SKID_MEMORY(m, headers(1), buckets(1025));'
refused 'a registry of 65' 'negative|at most 64 bindings' \
    "static struct plant_memory more; SKID_ARENA(other, more, registry($(printf '0, %.0s' {1..64})0)); struct skid_arena *o(void); struct skid_arena *o(void) { return &other; }"
refused 'a book of 65 slots' 'negative|1 to 64 slots' 'SKID_BOOK_MEMORY(b, slots(65));'
refused 'a book of no slots' 'negative|1 to 64 slots' 'SKID_BOOK_MEMORY(b, slots(0));'
refused 'two arenas over one memory' '(redeclaration|redefinition) of .*has_one_arena|has_one_arena.* conflicts' \
    'SKID_ARENA(other, memory, registry(0)); struct skid_arena *o(void); struct skid_arena *o(void) { return &other; }'
refused 'an arena over words of some length' 'member' 'SKID_ARENA(other, words, registry(0));'
refused 'an arena over the table alone' 'member|expected' 'SKID_ARENA(other, memory.table, registry(0));'
refused 'a book over bytes of some length' 'member' 'SKID_BOOK(other, bytes);'
types='incompatible|no matching function|cannot convert|could not convert|no known conversion|cannot initialize'
refused 'leases as words, and their number' "$types" "$(call 'skid_give_all(&plant, words, 6)')"
refused 'keys as words, and their number' "$types" "$(call 'skid_take_all(&plant, words, 4, leases)')"
refused 'keys and leases exchanged' "$types" "$(call 'skid_take_all(&plant, leases, 2, keys)')"
refused 'keys given back' "$types" "$(call 'skid_give_all(&plant, keys, 2)')"
refused 'a key given back' "$types" "$(call 'skid_give(&plant, keys[0])')"
refused 'a cell given back by its number' "$types" "$(call 'skid_give(&plant, 6)')"
refused 'the memory in place of the arena' "$types" "$(call 'skid_take(&memory, keys[0], leases)')"
refused 'arena and book exchanged' "$types" "$(call 'skid_book_read(&book, &plant, 6, &setting)')"
refused 'a grant that goes nowhere' 'too few arguments|no matching function' "$(call 'skid_take(&plant, keys[0])')"
refused 'the reply of the call before' 'no member named|has no member' 'uint64_t old(void); uint64_t old(void) { return plant.reply[0]; }'
refused 'a float where there are no SSE registers' 'skid_set_pressure' \
    "$(call 'skid_set_pressure(&plant, &book, leases[0], 1.5f, &written)')" "$kernel"
refused 'a float in place of its bits' 'float' "$(call 'skid_set_pressure_bits(&plant, &book, leases[0], 1.5f, &written)')"

# ---- another interface: the header's number, or the Rust face's, one higher
interface=$(sed -n 's/^#define SKID_INTERFACE //p' include/skid.h)
other=$((interface + 1))
rm -rf "$out/include" "$out/src"
mkdir -p "$out/include"
cp include/skid.h include/skid_arena.h "$out/include"
sed -i "s/^#define SKID_INTERFACE .*/#define SKID_INTERFACE $other/" "$out/include/skid.h"
echo '#include "skid.h"
int main(void) { return 0; }' >"$out/nothing.c"
# does_not_link WHAT WORDS..: the command fails, and says which name is missing
does_not_link() {
    local what=$1
    shift
    if "$@" >"$out/said" 2>&1; then fail "$what: it links"; fi
    grep -qE "undefined (reference to|symbol:).*skid_interface_$other" "$out/said" || { cat "$out/said"; fail "$what: another error"; }
    tried=$((tried + 1))
    echo "$what: does not link, undefined reference to skid_interface_$other"
}
for cc in "$gcc" "$clang"; do
    # shellcheck disable=SC2086
    $cc -Iinclude "$out/nothing.c" crates/skid/out/libskid.a -o "$out/nothing"
    for flags in -O0 '-O2 -ffunction-sections -fdata-sections -Wl,--gc-sections' '-O2 -flto'; do
        # shellcheck disable=SC2086
        does_not_link "$cc $flags, another interface" $cc $flags "-I$out/include" "$out/nothing.c" crates/skid/out/libskid.a -o "$out/nothing"
    done
done

rustc=(rustc)
[ "$(uname -m)" = x86_64 ] || rustc=(/usr/bin/rustc --target x86_64-unknown-linux-gnu -C linker=x86_64-linux-gnu-gcc)
CARGO_PKG_VERSION=$(sed -n 's/^version = "\(.*\)"$/\1/p' rust/skid/Cargo.toml)
export CARGO_PKG_VERSION
echo 'fn main() { println!("{}", skid::raw::read_setpoint(skid::Head { headers: 1, buckets: 1, next: 1, boot: 1 }, &[0; 52], 0)[0]); }' \
    >"$out/asks.rs"
# rust_program SRC: a program on the Rust face whose sources are in SRC
rust_program() {
    "${rustc[@]}" --edition 2021 -O --crate-type rlib --crate-name skid "$1/lib.rs" \
        -L native=crates/skid/out -l static=skid -o "$out/libskid.rlib" &&
        "${rustc[@]}" --edition 2021 -O "$out/asks.rs" --extern "skid=$out/libskid.rlib" -L native=crates/skid/out -o "$out/asks"
}
rust_program rust/skid/src
cp -r rust/skid/src "$out/src"
sed -i "s/skid_interface_$interface/skid_interface_$other/" "$out/src/raw.rs"
does_not_link 'Rust, another interface' rust_program "$out/src"
echo "misuse: $tried refused"
