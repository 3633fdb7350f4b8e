#!/usr/bin/env bash
# The tests of the Rust packages that need no library: the console, the plain twin of the rules, the bench program on it. They run
# natively, on any machine; what goes through the library is tested by the scripts beside this one.
set -euo pipefail
cd "$(dirname "$0")/.."
cargo test --release --offline --quiet --manifest-path rust/Cargo.toml -p console -p plain --target-dir target/rust
cargo test --release --offline --quiet --manifest-path rust/Cargo.toml -p bench --no-default-features --target-dir target/rust
