#!/usr/bin/env bash
# skid::kernel of rust/skid: its unit tests and the examples of its pages, which run; a governor, a panel and a logger through it over cold
# RAM of ten seeds, each figure checked; misuse that must not compile, each with the error that it must give; what a target that the library
# is not for, and a folder without the archive, are told; a program with no standard library, no C library and no start-up code below it,
# also for the bare target x86_64-unknown-none where the compiler has its `core`; all of it under the address sanitizer, where a nightly
# compiler is at hand. The archive is that of crates/skid/out. On a machine that is not x86-64, Debian's cross compilers make the programs
# and an emulator runs them.
set -euo pipefail
cd "$(dirname "$0")/.."
# shellcheck source=tests/lib.sh
. tests/lib.sh
out=target/rust-face
mkdir -p "$out/empty"

fail() {
    echo "rust-face: $*" >&2
    exit 1
}
[ -e crates/skid/out/libskid.a ] || fail "no crates/skid/out/libskid.a: rt lib --cpu x86-64 in crates/skid makes it"
need_cargo
need_cross
rustc=rustc gcc=gcc run=()
if [ "$(uname -m)" != x86_64 ]; then
    rustc=/usr/bin/rustc gcc=/usr/bin/x86_64-linux-gnu-gcc run=(/usr/bin/qemu-x86_64 -L /)
    export RUSTC=/usr/bin/rustc RUSTDOC=/usr/bin/rustdoc
    export CARGO_TARGET_X86_64_UNKNOWN_LINUX_GNU_LINKER=/usr/bin/x86_64-linux-gnu-gcc
    export CARGO_TARGET_X86_64_UNKNOWN_LINUX_GNU_RUNNER='/usr/bin/qemu-x86_64 -L /'
fi

# with_cargo WORD WORDS..: this word of cargo's on rust/skid, for x86-64
with_cargo() {
    local word=$1
    shift
    cargo "$word" --offline --manifest-path rust/Cargo.toml -p skid --target "$bench_target" --target-dir target/rust "$@"
}

# ---- unit tests and examples of the pages
with_cargo test --release >"$out/tests" 2>&1 || { cat "$out/tests"; fail "a test of the crate fails"; }
! grep -q '^warning' "$out/tests" || { cat "$out/tests"; fail "the crate has warnings"; }
passed=$(awk '/^test result: ok/ { n += $4 } END { print n + 0 }' "$out/tests")
[ "$passed" -gt 0 ] || fail "no test of the crate has run"
echo "rust/skid: $passed tests and examples of its pages passed"

# ---- the three programs
with_cargo run --release --quiet --example skid | tee "$out/skid"
grep -qE '^the kernel.s face: [0-9]{5,} figures of ten seeds, all as they should be$' "$out/skid" || fail "the last line is another"

# ---- misuse that must not compile
version=$(sed -n 's/^version = "\(.*\)"$/\1/p' rust/skid/Cargo.toml)
CARGO_PKG_VERSION=$version "$rustc" --edition 2021 -O --target "$bench_target" --crate-type rlib --crate-name skid \
    -L native=crates/skid/out -l static=skid -o "$out/libskid.rlib" rust/skid/src/lib.rs

# compiles CODE: the code inside a function compiles, behind an open arena
compiles() {
    cat >"$out/snippet.rs" <<END
#![allow(unused_mut, unused_variables)]
#![deny(unused_must_use)]
use skid::kernel::*;
pub fn turn() -> Result<(), Box<dyn std::error::Error>> {
    let mut memory = Memory::<Headers<2>, Buckets<4>>::new();
    let mut arena = Arena::open(&mut memory, &[0, 1, 1], 5);
    let key = Key { binding: 0, bucket: 2 };
    $1
    Ok(())
}
END
    "$rustc" --edition 2021 --target "$bench_target" --crate-type lib --emit obj --extern "skid=$out/libskid.rlib" \
        -o "$out/snippet.o" "$out/snippet.rs" 2>"$out/said"
}
misuses=0
# refused WHAT ERROR RIGHT WRONG: what is right compiles, what is wrong does not, and the compiler's message has ERROR
refused() {
    compiles "$3" || { cat "$out/said"; fail "$1: what is right does not compile"; }
    ! compiles "$4" || fail "$1: it compiles"
    grep -qF "$2" "$out/said" || { cat "$out/said"; fail "$1: the compiler does not say '$2'"; }
    misuses=$((misuses + 1))
}
refused 'a lease given back twice' 'E0382' \
    'let a = arena.take(key)?; arena.give(a)?;' \
    'let a = arena.take(key)?; arena.give(a)?; arena.give(a)?;'
refused 'a setpoint by a lease that was given back' 'E0382' \
    'let mut p = BookMemory::<8>::new(); let mut b = Book::open(&arena, &mut p)?; let a = arena.take(key)?; b.write(&arena, &a, Setpoint::Speed(1))?; arena.give(a)?;' \
    'let mut p = BookMemory::<8>::new(); let mut b = Book::open(&arena, &mut p)?; let a = arena.take(key)?; arena.give(a)?; b.write(&arena, &a, Setpoint::Speed(1))?;'
refused 'a lease copied' 'E0599' \
    'let a = arena.take(key)?; let b = a.cell(); arena.give(a)?;' \
    'let a = arena.take(key)?; let b = a.clone(); arena.give(a)?;'
refused 'a lease that is forgotten' 'a lease that is forgotten leaves its cell held' \
    'let a = arena.take(key)?;' \
    'arena.take(key)?;'
refused 'leases that are forgotten' 'leases that are forgotten leave their cells held' \
    'let all = arena.take_all([key])?;' \
    'arena.take_all([key])?;'
refused 'a refusal that nobody reads' 'unused `Result` that must be used' \
    'arena.poison(1)?;' \
    'arena.poison(1);'
refused 'two owners of a shared lease' 'E0507' \
    'let all = arena.take_all([key, key])?; let a = all.get(0).unwrap(); arena.give_all(all)?;' \
    'let all = arena.take_all([key, key])?; let a = *all.get(0).unwrap(); arena.give_all(all)?;'
refused 'the memory changed under an open arena' 'E0499' \
    'arena.heal(0)?; memory.as_mut_slices().0[0] = 1;' \
    'memory.as_mut_slices().0[0] = 1; arena.heal(0)?;'
refused 'headers and buckets exchanged' 'headers stand first' \
    'let m = Memory::<Headers<2>, Buckets<4>>::new();' \
    'let m = Memory::<Buckets<4>, Headers<2>>::new();'
refused 'two numbers that do not say which they are' 'E0747' \
    'let m = Memory::<Headers<2>, Buckets<4>>::new();' \
    'let m = Memory::<2, 4>::new();'
refused 'leases that were not given back, forgotten' 'leases that are forgotten leave their cells held' \
    'let all = arena.take_all([key])?; let back = arena.give_all(all).unwrap_err();' \
    'let all = arena.take_all([key])?; arena.give_all(all).unwrap_err();'
refused 'too many headers' '1 to 64 headers, 1 to 1,024 buckets, at most 4,096 cells' \
    'let m = Memory::<Headers<64>, Buckets<1>>::new();' \
    'let m = Memory::<Headers<65>, Buckets<1>>::new();'
refused 'too many cells' '1 to 64 headers, 1 to 1,024 buckets, at most 4,096 cells' \
    'let m = Memory::<Headers<4>, Buckets<1024>>::new();' \
    'let m = Memory::<Headers<5>, Buckets<1024>>::new();'
refused 'too many bindings' 'at most 64 bindings' \
    'let mut m = Memory::<Headers<1>, Buckets<1>>::new(); let a = Arena::open(&mut m, &[0; 64], 1);' \
    'let mut m = Memory::<Headers<1>, Buckets<1>>::new(); let a = Arena::open(&mut m, &[0; 65], 1);'
refused 'too many keys' 'at most 64 keys' \
    'let all = arena.take_all([key; 64])?;' \
    'let all = arena.take_all([key; 65])?;'
refused 'too many slots' '1 to 64 slots' \
    'let p = BookMemory::<64>::new();' \
    'let p = BookMemory::<65>::new();'
refused 'a report of another shape' 'E0308' \
    'let (h, mut r) = (arena.head(), Report::<Headers<2>, Buckets<4>>::new()); Arena::salvage(h, &mut memory, &[0], &mut r)?.1.left.for_each(drop);' \
    'let (h, mut r) = (arena.head(), Report::<Headers<4>, Buckets<2>>::new()); Arena::salvage(h, &mut memory, &[0], &mut r)?.1.left.for_each(drop);'
echo "misuse: $misuses refused, each with its error, and what is right beside each compiles"

# ---- what is told
# crate_with FLAGS..: the crate compiled with these flags, without code
crate_with() {
    CARGO_PKG_VERSION=$version "$rustc" --edition 2021 --crate-type rlib --crate-name skid --emit metadata -o "$out/skid.rmeta" "$@" \
        rust/skid/src/lib.rs 2>"$out/said"
}
# told WHAT SENTENCE FLAGS..: compiled with these flags the crate is refused with this sentence
told() {
    local what=$1 sentence=$2
    shift 2
    ! crate_with "$@" || fail "$what: it compiles"
    grep -qF "$sentence" "$out/said" || { cat "$out/said"; fail "$what: not told '$sentence'"; }
    echo "$what: told"
}
told 'a target without SSE' 'libskid.a uses the SSE registers' --target "$bench_target" -C target-feature=-sse
crate_with --target "$bench_target" -C target-feature=-sse --cfg 'feature="sse_is_on"' || { cat "$out/said"; fail "sse_is_on does not let it pass"; }
[ "$(uname -m)" = x86_64 ] || told 'another target than x86-64' 'libskid.a is x86-64 code'
SKID_LIB_DIR=$PWD/$out/empty with_cargo check >"$out/said" 2>&1
grep -qF "no libskid.a in $PWD/$out/empty: \`rt lib --cpu x86-64\` makes it in crates/skid/out" "$out/said" || { cat "$out/said"; fail "a folder without the archive is not named"; }
echo 'a folder without the archive: told'

# ---- with nothing below it
# bare TARGET FLAGS..: rust/skid/tests/bare/kernel.rs for this target ends with 0
bare() {
    local target=$1 flags=(--edition 2021 -O -C panic=abort --target "$1" -L native=crates/skid/out)
    shift
    CARGO_PKG_VERSION=$version "$rustc" "${flags[@]}" "$@" --crate-type rlib --crate-name skid -l static=skid -o "$out/libbare_skid.rlib" \
        rust/skid/src/lib.rs
    "$rustc" "${flags[@]}" -D warnings --crate-type staticlib --extern "skid=$out/libbare_skid.rlib" -o "$out/libbare.a" rust/skid/tests/bare/kernel.rs
    "$gcc" -nostdlib -static -Wl,-u,_start -Wl,--gc-sections "$out/libbare.a" -o "$out/bare"
    timeout 60 ${run[@]+"${run[@]}"} "$out/bare" || fail "$target, with nothing below it: ended with $?"
    echo "$target, with nothing below it: done"
}
bare "$bench_target"
metal=x86_64-unknown-none
if compgen -G "$("$rustc" --print target-libdir --target $metal)/libcore-*.rlib" >/dev/null; then
    bare $metal --cfg 'feature="sse_is_on"'
else
    echo "$metal: this compiler has no core for it"
fi

# ---- under the address sanitizer, which no stable compiler has
if [ "$(uname -m)" = x86_64 ] && rustc +nightly --version >/dev/null 2>&1; then
    echo 'fn main() { let v = vec![1u8; 4]; println!("{}", unsafe { *v.as_ptr().add(std::env::args().count() + 3) }); }' >"$out/slip.rs"
    rustc +nightly -Zsanitizer=address "$out/slip.rs" -o "$out/slip"
    ! "$out/slip" >/dev/null 2>&1 || fail "the address sanitizer does not see a byte behind a buffer"
    # sanitized WORD WORDS..: this word of cargo's on rust/skid
    sanitized() {
        RUSTFLAGS=-Zsanitizer=address RUSTDOCFLAGS=-Zsanitizer=address cargo "+nightly" "$1" --offline --manifest-path rust/Cargo.toml -p skid \
            --target "$bench_target" --target-dir target/rust-sanitized "${@:2}" >"$out/sanitized" 2>&1 || { cat "$out/sanitized"; fail "sanitized: $*"; }
    }
    sanitized test
    for example in skid bench wave; do sanitized run --example $example; done
    echo "under the address sanitizer: the same tests and three programs passed"
fi
