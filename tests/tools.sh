#!/usr/bin/env bash
# What the tests need beside the kit: a C compiler, cargo, rustc and Python. What is missing comes from Debian's packages.
set -euo pipefail
missing=()
command -v cc >/dev/null || missing+=(gcc libc6-dev)
command -v cargo >/dev/null || missing+=(cargo)
command -v rustc >/dev/null || missing+=(rustc)
command -v python3 >/dev/null || missing+=(python3)
if [ "${#missing[@]}" -gt 0 ]; then
    apt-get update
    apt-get install -y --no-install-recommends "${missing[@]}"
fi
