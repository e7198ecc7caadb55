#!/usr/bin/env bash
# Measures the readers of tokens against the same loops in C (tokens.c), through the static library.
set -eu
cd "$(dirname "$0")/.."
(cd crates/token_exports && rt lib >/dev/null)
mkdir -p target/bench
gcc -O2 -o target/bench/tokens bench/tokens.c crates/token_exports/out/libtoken_exports.a
target/bench/tokens
