#!/usr/bin/env bash
# The static library as people use it. Header, Rust face and archive have the same functions; document 01's bench cases and document 02's
# keys in any order, salvage, boot numbers, crew at work, setpoint book and waveform run through the library from C and from Rust, and
# each figure is checked; and a pressure that is no number raises no floating-point exception. Built things go to target/library.
set -euo pipefail
cd "$(dirname "$0")/.."
# shellcheck source=tests/lib.sh
. tests/lib.sh
out=target/library
archive=crates/skid/out/libskid.a
mkdir -p "$out"

fail() {
    echo "library: $*" >&2
    exit 1
}

# The library is x86-64 code. Elsewhere Debian's cross compilers make the programs, and an emulator runs them.
if [ "$(uname -m)" = x86_64 ]; then
    cc=cc cxx=c++ nm=nm
    rustc=(rustc -D warnings)
    run=()
else
    cc=/usr/bin/x86_64-linux-gnu-gcc cxx=/usr/bin/x86_64-linux-gnu-g++ nm=/usr/bin/x86_64-linux-gnu-nm
    rustc=(/usr/bin/rustc --target x86_64-unknown-linux-gnu -C "linker=$cc")
    run=(/usr/bin/qemu-x86_64 -L /)
fi

need_cross
build_library

# ---- header, C test and archive have the same functions; the archive asks for no more than the header says. Of header and Rust face
# tests/signatures.py compares the arguments too.
grep -oE '^void skid_[a-z_]+' include/skid.h | sed 's/^void //' | sort >"$out/header"
grep -ohE 'skid_[a-z_]+\(' tests/c/bench.c tests/c/wave.c | tr -d '(' | sort -u >"$out/called"
"$nm" -g --defined-only "$archive" | awk 'NF == 3 && $3 !~ /^skid_interface_[0-9]+$/ { print $3 }' | sort >"$out/archive"
diff "$out/header" "$out/archive" || fail "the header (<) and the archive (>) have different functions"
diff "$out/called" "$out/archive" || fail "the C tests call (<) other functions than the archive has (>)"
[ "$(wc -l <"$out/header")" = 29 ] || fail "document 01 has 18 calls, the setpoint book 6, the waveform 2, keys in any order, salvage and the crew at work 1 each"
"$nm" -u "$archive" | awk '$1 == "U" && $2 != "memcpy" && $2 != "memset" { print "asks for " $2; bad = 1 } END { exit bad }' ||
    fail "the header says that the archive asks for memcpy and memset alone"
"$nm" "$archive" | awk '$2 ~ /^[BbCDd]$/ { print "changing data: " $3; bad = 1 } END { exit bad }' ||
    fail "the header says that the archive has no data that changes"

# A program, and the last line that it must print.
passes() {
    local program=$1 last=$2
    "${run[@]}" "$program" | tee "$program.out" || fail "$program failed"
    [ "$(tail -n 1 "$program.out")" = "$last" ] || fail "$program: the last line is not '$last'"
}

# ---- C
echo '#include "skid.h"' >"$out/header.cc"
if command -v "$cxx" >/dev/null; then
    "$cxx" -fsyntax-only -Wall -Wextra -Werror -pedantic -Iinclude "$out/header.cc"
fi
"$cc" -std=c99 -Wall -Wextra -Werror -pedantic -O2 -Iinclude tests/c/bench.c "$archive" -o "$out/bench_c"
passes "$out/bench_c" "bench cases in C: 16 passed"
"$cc" -std=c99 -Wall -Wextra -Werror -pedantic -O2 -Iinclude tests/c/wave.c "$archive" -o "$out/wave_c"
passes "$out/wave_c" "waveform in C: passed"
"$cc" -std=c99 -Wall -Wextra -Werror -pedantic -O2 -Iinclude tests/c/floats.c "$archive" -o "$out/floats_c"
passes "$out/floats_c" "no number, no exception in C: 6 passed"

# ---- Rust; without cargo the version has to be told
CARGO_PKG_VERSION=$(sed -n 's/^version = "\(.*\)"$/\1/p' rust/skid/Cargo.toml)
export CARGO_PKG_VERSION
"${rustc[@]}" --edition 2021 -O --crate-type rlib --crate-name skid rust/skid/src/lib.rs \
    -L native=crates/skid/out -l static=skid -o "$out/libskid.rlib"
"${rustc[@]}" --edition 2021 -O rust/skid/examples/bench.rs \
    --extern "skid=$out/libskid.rlib" -L native=crates/skid/out -o "$out/bench_rust"
passes "$out/bench_rust" "bench cases in Rust: 16 passed"
"${rustc[@]}" --edition 2021 -O rust/skid/examples/wave.rs \
    --extern "skid=$out/libskid.rlib" -L native=crates/skid/out -o "$out/wave_rust"
passes "$out/wave_rust" "waveform in Rust: passed"
