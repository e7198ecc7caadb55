#!/usr/bin/env bash
# Reading and the survey on 1 MB of realistic text and on other shapes, through the static library; and, where cargo and Debian's crates are there, beside the Rust.
set -eu
cd "$(dirname "$0")/.."
make target/staticlib/libmatter_idl.a >/dev/null
bench/texts
gcc -O2 -Wall -Wextra -o target/bench/shapes bench/shapes.c target/staticlib/libmatter_idl.a
target/bench/shapes target/bench/device_256k.matter target/bench/device_1m.matter
if command -v cargo >/dev/null; then
    MATTER_IDL_LIB=target/staticlib tests/differential/run speed target/bench/{device,instances,entries,annotations}_1m.matter
fi
