#!/usr/bin/env bash
# The proved library beside plain Rust (rust/plain), both called from rust/speed with the same arguments. Without a word it
# prints the counts that both gave, the instructions of a call, which are the same at every run, nanoseconds on an x86-64
# machine, and how instructions grow with size. `--write` puts that on docs/SPEED.md and draws docs/speed.svg. `--quick`, for
# the gate, counts instructions alone: it fails if a row is above twice plain Rust's, or a tenth above what the page says.
# It ends 1 if the two sides answer differently.
set -euo pipefail
cd "$(dirname "$0")/.."
# shellcheck source=tests/lib.sh
. tests/lib.sh
case ${1:-} in
    '' | --write | --quick) ;;
    *) echo "usage: bash bench/speed.sh [--write | --quick]" >&2; exit 2 ;;
esac
mkdir -p target/speed

build_library >&2
if program_is_old report; then build_program report >&2; fi
need_cross >&2

# Both sides are code for any x86-64 machine, at the highest level of optimisation. So is the library.
export RUSTFLAGS=
if [ "$(uname -m)" = x86_64 ]; then
    emulate=(qemu-x86_64)
    command -v qemu-x86_64 >/dev/null || install_packages qemu-user >&2
else
    # Debian's cross compilers make the program.
    emulate=(/usr/bin/qemu-x86_64 -L /)
    export RUSTC=/usr/bin/rustc CARGO_TARGET_X86_64_UNKNOWN_LINUX_GNU_LINKER=/usr/bin/x86_64-linux-gnu-gcc
fi
cargo build --release --offline --quiet --manifest-path rust/Cargo.toml -p speed -p plain --bin speed --bin report \
    --target "$bench_target" --target-dir target/rust
command -v gcc >/dev/null || install_packages gcc libc6-dev >&2
gcc -O2 -Wall -Wextra -shared -fPIC -o target/speed/insn.so bench/insn.c
exec python3 bench/speed.py "${1:-}" "${emulate[@]}"
