#!/usr/bin/env bash
# install.sh: the library put into an empty folder; the programs of docs/INTEGRATION.md compiled from there, outside the repository, by
# pkg-config's flags alone, in C and C++, and run, each with the output that the page shows; one program by CMake, where it is at hand, and
# one in Rust by cargo; then all of it taken away again, and nothing is left but what was there before. A second installing over the first
# is as the first; a hash that is written to the changelog is found there. The archive is that of crates/skid/out.
set -euo pipefail
cd "$(dirname "$0")/.."
# shellcheck source=tests/lib.sh
. tests/lib.sh
# shellcheck source=tests/compilers.sh
. tests/compilers.sh
top=$PWD
page=$top/docs/INTEGRATION.md
need_compilers
command -v pkg-config >/dev/null || install_packages pkg-config
need_cargo
room=$(mktemp -d)
trap 'rm -rf "$room"' EXIT
prefix=$room/prefix

fail() {
    echo "install: $*" >&2
    exit 1
}

# ---- put there, twice; another's file beside it
mkdir -p "$prefix/include"
echo '/* another */' >"$prefix/include/another.h"
bash install.sh "$prefix" >"$room/first"
(cd "$prefix" && find . -type f | sort | xargs sha256sum) >"$room/sums"
bash install.sh "$prefix" >"$room/second"
cmp "$room/first" "$room/second" || fail "a second installing says something else"
(cd "$prefix" && find . -type f | sort | xargs sha256sum) | cmp - "$room/sums" || fail "a second installing leaves something else"
tail -n 1 "$room/first" | grep -qF "$(sha256sum crates/skid/out/libskid.a | cut -d' ' -f1)" || fail "it does not print the archive's hash"
# ---- the hash: written into a copy of the changelog it is found there, beside that of another host; a wrong one is not
cp -r install.sh CHANGELOG.md "$room"
mkdir -p "$room/crates/skid/out"
cp crates/skid/out/libskid.a "$room/crates/skid/out"
count() { awk '/^## / { n++ } n == 1' "$room/CHANGELOG.md" | grep -c 'The archive of this version has the SHA-256' || true; }
sed -i 's/ on an Arm host/ on a host of another kind/; s/ on an x86-64 host/ on a host of another kind/' "$room/CHANGELOG.md"
others=$(count)
bash "$room/install.sh" --hash write
bash "$room/install.sh" --hash write
[ "$(count)" = $((others + 1)) ] || fail "this host's hash has not one line"
bash "$room/install.sh" --hash check
echo >>"$room/crates/skid/out/libskid.a"
! bash "$room/install.sh" --hash check 2>/dev/null || fail "an archive that the changelog does not name is taken"
# A version that was not made on a host of this kind has no hash of it; that is said, and is no failure.
if ! bash install.sh --hash check 2>"$room/said"; then
    host=$(sed -n 's/^install: on \(.*\) the archive is .*/\1/p' "$room/said")
    ! awk '/^## / { n++ } n == 1' CHANGELOG.md | grep -qF " makes it on $host" || fail "$(cat "$room/said")"
    echo "install: CHANGELOG.md has no hash of $host"
fi

# ---- the page's programs
# blocks: each C block of the page to PLACE.c, and the block of output behind it to PLACE.out
awk -v room="$room" '
    /^```/ && kind { kind = ""; next }
    /^```c$/ { n++; kind = "c"; next }
    /^```out$/ { kind = "out"; next }
    kind { print > (room "/" n "." kind) }' "$page"
[ -e "$room/1.c" ] || fail "the page has no program"
export PKG_CONFIG_PATH=$prefix/lib/pkgconfig PKG_CONFIG_LIBDIR=$prefix/lib/pkgconfig
cd "$room"
programs=0
for program in [0-9]*.c; do
    for compiler in "$gcc -std=c99" "$clang -std=c11" "$gxx -x c++ -std=c++17"; do
        # shellcheck disable=SC2046,SC2086
        $compiler -Wall -Wextra -Werror $(pkg-config --cflags skid) "$program" -x none $(pkg-config --libs skid) -o program ||
            fail "$compiler: the page's program ${program%.c} is not clean"
        "${run[@]}" ./program | cmp - "${program%.c}.out" || fail "$compiler: the page's program ${program%.c} prints something else"
        programs=$((programs + 1))
    done
done
[ "$(pkg-config --modversion skid)" = "$(sed -n 's/^#define SKID_VERSION "\(.*\)"$/\1/p' "$prefix/include/skid.h")" ] ||
    fail "pkg-config says another version"

# ---- CMake
cmake_too="no CMake here"
if command -v cmake >/dev/null; then
    mkdir cmake
    cp 1.c cmake/kernel.c
    { echo 'cmake_minimum_required(VERSION 3.16)' && echo 'project(kernel C)' && echo 'add_executable(kernel kernel.c)'; } >cmake/CMakeLists.txt
    sed -n '/^    \(find_package\|target_link_libraries\)(/s/^    //p' "$page" >>cmake/CMakeLists.txt
    cmake -S cmake -B cmake/made -DCMAKE_C_COMPILER="$gcc" -DCMAKE_SYSTEM_NAME=Linux -DCMAKE_PREFIX_PATH="$prefix" >cmake.log 2>&1 ||
        { cat cmake.log; fail "CMake does not take the page's lines"; }
    cmake --build cmake/made >cmake.log 2>&1 || { cat cmake.log; fail "CMake does not make the page's program"; }
    "${run[@]}" cmake/made/kernel | cmp - 1.out || fail "made by CMake, the page's program prints something else"
    cmake_too="one by CMake"
fi

# ---- cargo
mkdir -p rust/src
cat >rust/Cargo.toml <<END
[package]
name = "kernel"
version = "0.1.0"
edition = "2021"

[dependencies]
skid = { path = "$prefix/share/skid/rust" }

[workspace]
END
echo 'fn main() { println!("{}", skid::VERSION); }' >rust/src/main.rs
if [ "$(uname -m)" != x86_64 ]; then
    # shellcheck disable=SC2031
    export RUSTC=/usr/bin/rustc CARGO_TARGET_X86_64_UNKNOWN_LINUX_GNU_LINKER=$gcc
fi
unset SKID_LIB_DIR
cargo build --quiet --offline --manifest-path rust/Cargo.toml --target "${bench_target:?}" --target-dir rust/made || fail "cargo does not make a program"
[ "$("${run[@]}" "rust/made/$bench_target/debug/kernel")" = "$(pkg-config --modversion skid)" ] || fail "the Rust crate has another version"

# ---- taken away
cd "$top"
bash install.sh --uninstall "$prefix"
[ "$(find "$prefix" -mindepth 1 | sort | tr '\n' ' ')" = "$prefix/include $prefix/include/another.h " ] ||
    { find "$prefix"; fail "something is left, or too much is gone"; }
! bash install.sh --uninstall "$prefix" 2>/dev/null || fail "it takes away what is not there"
! bash install.sh relative 2>/dev/null || fail "a prefix that is not absolute is taken"
echo "install: $programs programs of the page by pkg-config, $cmake_too, one in Rust; taken away, and nothing is left"
