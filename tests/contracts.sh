#!/usr/bin/env bash
# docs/CONTRACTS.md against crate upstream, the fixed list tests/contracts.txt and upstream's own text (tests/contracts.py
# says what is held to what), and then the test of that test. Prints what is wrong, or how much agrees; ends with 1 if
# anything is wrong.
set -euo pipefail
cd "$(dirname "$0")/.."
command -v python3 >/dev/null || { echo "tests/contracts.sh needs python3"; exit 1; }
python3 -B tests/contracts.py check
python3 -B tests/contracts-damaged.py
